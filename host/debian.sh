# Debian's packages, fetched and unpacked into the cache, never installed: no root is needed, and what dpkg was told does not matter. For the
# scripts beside it, which set $cache.

# going WHAT COMMAND..: one line on standard error that says what is going on, and goes on saying it; what the command prints is shown only
# where it fails
going() {
    what=$1
    shift
    log=$(mktemp "$cache/log.XXXXXX")
    printf 'host: %s ' "$what" >&2
    began=$(date +%s)
    while sleep 2 && kill -0 $$ 2>/dev/null; do printf . >&2; done &
    dots=$!
    going_status=0
    ("$@") >"$log" 2>&1 || going_status=$?
    kill "$dots" 2>/dev/null
    wait "$dots" 2>/dev/null || :
    if [ "$going_status" = 0 ]; then
        echo " $(($(date +%s) - began)) s" >&2
    else
        echo >&2
        cat "$log" >&2
    fi
    rm -f "$log"
    return "$going_status"
}
# alone COMMAND..: one checkout at a time fetches into the cache
alone() {
    exec 9>"$cache/lock"
    flock 9
    "$@"
    exec 9>&-
}

# apt_ready PACKAGE: apt with lists and a cache of its own, for both architectures
apt_ready() {
    [ -z "${apt:-}" ] || return 0
    for tool in apt-get dpkg dpkg-deb; do
        command -v $tool >/dev/null || die "cannot fetch $1: no $tool on this machine"
    done
    mkdir -p "$cache/apt/lists/partial" "$cache/apt/cache/archives/partial"
    apt="-q=2 -o Dir::State=$cache/apt -o Dir::State::lists=$cache/apt/lists -o Dir::State::status=/var/lib/dpkg/status
         -o Dir::Cache=$cache/apt/cache -o APT::Architectures::=$(dpkg --print-architecture) -o APT::Architectures::=amd64
         -o APT::Sandbox::User= -o Acquire::Languages=none -o Acquire::Retries=3 -o Debug::NoLocking=1"
    # lists of the last hour do
    [ -z "$(find "$cache/apt/updated" -mmin -60 2>/dev/null)" ] || return 0
    # shellcheck disable=SC2086
    apt-get $apt update >"$cache/apt/log" 2>&1 || unfetched "$1"
    touch "$cache/apt/updated"
}
# unfetched PACKAGE..: apt's first complaint is the cause, the later ones follow from it
unfetched() { die "cannot fetch $*: $(grep -m 1 '^[WE]:' "$cache/apt/log")"; }
# unpack DIR PACKAGE..: the packages' files, below DIR
unpack() {
    into=$1
    shift
    rm -rf "$into" "$cache/debs"
    mkdir -p "$into" "$cache/debs"
    # shellcheck disable=SC2086
    (cd "$cache/debs" && apt-get $apt download "$@") >>"$cache/apt/log" 2>&1 || unfetched "$@"
    for deb in "$cache"/debs/*.deb; do
        dpkg-deb --fsys-tarfile "$deb" | tar -x -C "$into" --exclude=./usr/share/doc --exclude=./usr/share/man ||
            die "cannot unpack ${deb##*/}"
    done
    rm -rf "$cache/debs"
}
# lacking PACKAGE..: they and what they need, as far as the machine has them not
# shellcheck disable=SC2086
lacking() { apt-get $apt install -s --no-install-recommends "$@" | awk '/^Inst/ {print $2}'; }
