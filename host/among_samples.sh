# A folder of its own with the samples in it, for the scripts that test ox: it sets $here, the folder of the script that reads this, $root and
# $work, goes there, and takes it away in the end.
here=$(cd "$(dirname "$0")" && pwd -P)
root=$(cd "$here/../.." && pwd -P)
work=$(mktemp -d)
trap 'rm -rf "$work"' EXIT
ln -s "$root/samples" "$work/samples"
cd "$work" || exit 1
