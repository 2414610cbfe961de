#!/bin/sh
# Copies a store while no run goes on, tries the copy, and prints its last line, as `end epoch 6`.
#
#     backup.sh FOLDER full|delta COPIES
#
# The copy is a folder of COPIES named by the time, with store.book and store.blobs, both of one moment:
# the book names blocks of the other file that later updates use again. keys.hex isn't in it: keep that
# apart. Runs that are started as `flock FOLDER overstore run MODE` wait for the copy, and
# it waits for them. Any other run ends the backup with status 4, or is seen by its epoch.
set -eu
umask 077
if [ $# != 3 ]; then
    echo "usage: backup.sh FOLDER full|delta COPIES" >&2
    exit 2
fi
folder=$(cd "$1" && pwd)
mode=$2
copies=$(cd "$3" && pwd)
copy=$copies/$(date -u +%Y-%m-%dT%H%M%SZ)

# An empty script would begin a store where there is none.
if [ ! -s "$folder/store.book" ]; then
    echo "backup.sh: no store in $folder" >&2
    exit 1
fi

exec 9< "$folder"
flock 9
store_end=$(cd "$folder" && overstore run "$mode" < /dev/null)
mkdir "$copy.untried"
cp "$folder/store.book" "$folder/store.blobs" "$copy.untried"
exec 9<&-

# The empty script looks at the whole copy, and has it synced.
ln -s "$folder/keys.hex" "$copy.untried/keys.hex"
copy_end=$(cd "$copy.untried" && overstore run "$mode" < /dev/null)
rm "$copy.untried/keys.hex" "$copy.untried/trace.bin"
if [ "$copy_end" != "$store_end" ]; then
    echo "backup.sh: $copy.untried has '$copy_end', the store had '$store_end'" >&2
    exit 1
fi
mv "$copy.untried" "$copy"
echo "$copy_end"
