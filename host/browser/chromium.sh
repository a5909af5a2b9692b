# browser_ready: Debian's chromium, unpacked and never installed, for host.sh, whose functions and $cache it uses. It sets $chromium to a
# command that runs it without a window. Where that cannot be had it says why in one line and returns 1: a part that was not run has not failed.

# The machine's own where it has one; else it and what it needs, fetched once. The fonts are fetched in either case and are the only ones
# that the browser sees, so that a text is as wide on one machine as on another.
# shellcheck disable=SC2154
browser_ready() {
    command -v python3 >/dev/null || {
        say 'no python3 to drive a browser with' >&2
        return 1
    }
    unpacked=$cache/chromium chromium=$cache/chromium/headless
    [ -f "$unpacked.ok" ] || going "fetching a browser from Debian's packages" fetch_chromium
}
fetch_chromium() {
    apt_ready chromium
    # shellcheck disable=SC2046
    unpack "$unpacked" fonts-dejavu-core $(lacking chromium)
    browser_fonts >"$unpacked/fonts.conf"
    real=$unpacked/usr/lib/chromium/chromium
    [ -x "$real" ] || real=$(command -v chromium) || die 'cannot fetch chromium: none for this machine'
    # a library may lie in a folder that only the library beside it knows, and knows it as installed
    libraries=$(find "$unpacked" -name '*.so*' -printf '%h\n' | sort -u | paste -s -d :)
    # a sandbox needs rights that a container has not, and /dev/shm may be small there: what it opens are pages that were made here
    script "$chromium" "env LD_LIBRARY_PATH='$libraries' FONTCONFIG_FILE='$unpacked/fonts.conf' '$real' --headless=new --no-sandbox \\
    --disable-gpu --disable-dev-shm-usage --no-first-run --disable-background-networking --disable-component-update --disable-sync \\
    --disable-default-apps --disable-extensions --metrics-recording-only --hide-scrollbars --mute-audio \"\$@\""
    "$chromium" --version >/dev/null 2>&1 || die 'the chromium that was fetched does not run'
    touch "$unpacked.ok"
}
browser_fonts() {
    cat <<XML
<?xml version="1.0"?>
<!DOCTYPE fontconfig SYSTEM "fonts.dtd">
<fontconfig>
<dir>$unpacked/usr/share/fonts</dir>
<cachedir>$unpacked/fontcache</cachedir>
<alias><family>system-ui</family><prefer><family>DejaVu Sans</family></prefer></alias>
<alias><family>sans-serif</family><prefer><family>DejaVu Sans</family></prefer></alias>
<alias><family>monospace</family><prefer><family>DejaVu Sans Mono</family></prefer></alias>
</fontconfig>
XML
}
