#!/bin/sh
# The SHA-256 over the sources of the library: over the names and the SHA-256 of crates.txt and of every file of the crates' src/, specs/ and proofs/.
cd "$(dirname "$0")/.." || exit 1
{ find crates/*/src crates/*/specs crates/*/proofs -type f 2>/dev/null && echo crates.txt; } | LC_ALL=C sort | tr '\n' '\0' | xargs -0 sha256sum | sha256sum | cut -d ' ' -f 1
