#!/bin/sh
# Builds the story files of lighthouse.inf, streams.inf and box.inf, and fails where they are not those of CHECKSUMS. Their
# checksums go to standard output. It takes inform6 of Debian's package inform6-compiler, version 6.41-1.
set -eu
cd "$(dirname "$0")"
for version in 3 4 5 8; do
    inform6 "-v$version" lighthouse.inf "lighthouse.z$version" >&2
done
inform6 -v5 streams.inf streams.z5 >&2
inform6 -v5 box.inf box.z5 >&2
sha256sum lighthouse.z3 lighthouse.z4 lighthouse.z5 lighthouse.z8 streams.z5 box.z5
sha256sum --check --quiet CHECKSUMS >&2
