#!/bin/sh
# Starts a server for the masters of keys.hex in this folder, at 127.0.0.1:7400, in mode full, and waits
# until it listens. It ends after so many sessions:
#
#     sh tools/serve.sh SESSIONS
set -eu
cat > settings.toml <<END
address = "127.0.0.1:7400"
mode = "full"
surface = "$(sed -n 2p keys.hex)"
base_check = "$(overctl check keys.hex)"
book = "store.book"
blobs = "store.blobs"
sessions = $1
END
overstored settings.toml > lines 2> told < /dev/null &
until [ -s lines ]; do sleep 0.1; done
