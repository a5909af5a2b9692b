#!/bin/sh
# Packages the crate oxbreathe with the proved library in it: host/package.sh CARGO [OPTION..], the options being those of `cargo package`. The
# library lies in dist/ at the top of the repository, and in the crate's own folder only meanwhile.
set -u
cd "$(dirname "$0")" || exit 1
cargo=$1
shift
trap 'rm -rf oxbreathe/dist' EXIT
rm -rf oxbreathe/dist
cp -R ../dist oxbreathe/dist || exit 1
"$cargo" package --allow-dirty --package oxbreathe "$@"
