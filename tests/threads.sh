#!/bin/sh
# Runs guests of examples/ on threads, again and again, and replays each journal. README.md says more.
#     tests/threads.sh [RUNS [PROGRAM]]
# PROGRAM is ./vmrun where none is given. Ends with status 0 where each run and each replay gave what it must.
cd "$(dirname "$0")/.." || exit 1
runs=${1:-200}
program=${2:-./vmrun}
made=$(mktemp -d) || exit 1
trap 'rm -rf "$made"' EXIT
failed=0
spent=0

# how much of a disk's file is what it must be: the bytes at an offset
bytes_at() { # FILE OFFSET COUNT
    dd if="$1" bs=1 skip="$2" count="$3" 2>/dev/null
}

wrong() {
    echo "$1 $2: $3" >&2
    failed=$((failed + 1))
}

# the same configuration, with its disks in the folder of this run
configured() { # NAME
    sed "s|examples/\(disk[01]\.img\)|$made/\1|" "examples/$1.conf" >"$made/conf"
    for disk in 0 1; do
        head -c 4096 /dev/zero >"$made/disk$disk.img"
    done
}

# what a run may have: anything; no thread, since a thread's stack alone takes more than all memory that it may have; or
# two threads at most (KiB)
anything() { :; }
no_thread() { ulimit -s 8388608 && ulimit -v 1048576; }
two_threads() { ulimit -s 550000 && ulimit -v 1400000; }

# one run: its status, its console, its journal's replay. A guest that waits in a loop may spend its instructions on that where
# the other vCPU gets no processor: it then has status 5 and wrote nothing
try_once() { # NAME NUMBER CONSOLE [LIMITS]
    configured "$1"
    ("${4:-anything}" && exec "$program" run "$made/conf" --limit 20000000 --journal "$made/journal") >"$made/console" 2>"$made/log"
    status=$?
    if [ "$1 $status" = "starts 5" ]; then
        spent=$((spent + 1))
        [ -s "$made/console" ] && wrong "$1" "$2" "a console at status 5"
    else
        [ "$status" -eq 0 ] || wrong "$1" "$2" "status $status"
        printf '%b' "$3" | cmp -s - "$made/console" || wrong "$1" "$2" "another console"
    fi
    "$program" replay "$made/conf" "$made/journal" --limit 20000000 >"$made/again" 2>"$made/log_again"
    status=$?
    [ "$status" -eq 0 ] || wrong "$1" "$2" "status $status of its replay"
    cmp -s "$made/console" "$made/again" || wrong "$1" "$2" "another console of its replay"
    cmp -s "$made/log" "$made/log_again" || wrong "$1" "$2" "another report of its replay"
}

# whether both disks hold what the guest of examples/disks.asm writes to sectors 0 and 2
disks_written() { # NUMBER
    [ "$(bytes_at "$made/disk0.img" 0 1)$(bytes_at "$made/disk0.img" 1024 1)" = 12 ] || wrong disks "$1" "another disk 0"
    [ "$(bytes_at "$made/disk1.img" 0 1)$(bytes_at "$made/disk1.img" 1024 1)" = 34 ] || wrong disks "$1" "another disk 1"
}

# builds the program where that is to be done
"$program" solo examples/a.img >/dev/null 2>&1
number=1
while [ "$number" -le "$runs" ]; do
    try_once starts "$number" '1'
    try_once counts "$number" '10000\n'
    try_once disks "$number" '00000 12\n00000 34\n'
    disks_written "$number"
    number=$((number + 1))
done
# runs in which every start of a thread is refused, or all but two
for limits in no_thread two_threads; do
    try_once starts "$limits" '1' "$limits"
    try_once counts "$limits" '10000\n' "$limits"
    try_once disks "$limits" '00000 12\n00000 34\n' "$limits"
    disks_written "$limits"
done
echo "$runs runs of each of 3 guests, $failed wrong; $spent of the first spent their instructions on waiting; the same guests without a thread and with two"
[ "$failed" -eq 0 ]
