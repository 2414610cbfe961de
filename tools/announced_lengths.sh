#!/bin/sh
# Announced lengths take no memory before their bytes came: 10,000 streams that announce the longest
# frame, and 100 scripts that announce the longest file, all kept at once in 64 MiB of addresses, and
# one script through the program itself in 16 MiB. `rt run` in crates/speed and in crates/overstore
# leaves the two programs; run this at the top.
set -e
(
    ulimit -v 65536
    crates/speed/out/speed lengths
) | grep -q '^80000 bytes of frames, 100 scripts$'
folder=$(mktemp -d)
trap 'rm -rf "$folder"' EXIT
cp examples/keys.hex "$folder"
program=$PWD/crates/overstore/out/overstore
cd "$folder"
status=0
printf 'create f - 16777216\nhello' | (ulimit -v 16384; exec "$program" run full) > out || status=$?
[ "$status" = 3 ] && [ "$(cat out)" = "error line 1" ]
echo "announced lengths take no memory"
