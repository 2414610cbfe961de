#!/bin/sh
# Whether a server answers and still accepts updates:
#
#     health.sh ADDRESS UNIT
#     health.sh ADDRESS LOG
#
# It ends with 0 if so, and otherwise with 1 and a line that says why. It asks the server at ADDRESS for its
# epoch, which needs no key. That alone says little of its disk: a server whose disk failed still answers
# from memory, and says on standard error that it accepts no update any more. So it also looks for
# that line, in what the systemd unit UNIT has written to the journal since it was last started, or in LOG, the
# path of a file that has the standard error of the running server and of no earlier one. A path has a `/`.
set -u

if [ $# -ne 2 ]; then
    echo "use health.sh ADDRESS UNIT or health.sh ADDRESS LOG" >&2
    exit 1
fi

overctl epoch "$1" --timeout 10 > /dev/null || {
    echo "no answer from $1"
    exit 1
}

said() {
    case $1 in
        */*) cat "$1" ;;
        *) journalctl --quiet --output cat "_SYSTEMD_INVOCATION_ID=$(systemctl show --property InvocationID --value "$1")" ;;
    esac
}

# A log that can't be read says nothing of the disk.
lines=$(said "$2") || {
    echo "cannot read what $2 said"
    exit 1
}
case $lines in
    *"a write to the store failed"*)
        echo "$1 accepts no update: its disk failed"
        exit 1
        ;;
esac
