#!/bin/bash
# How fast guests run: host instructions a guest instruction by valgrind, and user time beside Bochs.
#
# Usage, from anywhere: examples/bench/bench.sh
# The program is built first where it isn't (by ./vmrun), or VMRUN names one that is. valgrind is Debian's package
# `valgrind`, and Bochs is Debian's packages `bochs` and `bochsbios` with `vgabios`:
#     apt-get install --no-install-recommends valgrind bochs bochsbios vgabios
# Where one of them isn't installed its lines are left out. Every figure is the difference of a short and a long loop, so
# that neither the start of a program nor Bochs' BIOS counts. docs/SPEED.md says what came of it.
set -eu
here=$(cd "$(dirname "$0")" && pwd)
top=$(cd "$here/../.." && pwd)
if [ -z "${VMRUN:-}" ]; then
    "$top/vmrun" solo "$top/examples/a.img" >/dev/null
fi
program=${VMRUN:-$top/crates/vmrun/out/vmrun}
work=$(mktemp -d)
trap 'rm -rf "$work"' EXIT
cd "$work"
declare -a solo replay

loop() { python3 "$here/loops.py" "$@"; }

# how many instructions a round of a loop has
round_of() { if [ "$1" = registers ]; then echo 4; else echo 7; fi; }

# user seconds of a command, the least of seven runs
user_of() {
    local TIMEFORMAT=%U
    for _ in 1 2 3 4 5 6 7; do
        { time "$@" >/dev/null 2>&1 </dev/null; } 2>&1
    done | sort -n | head -1
}

# host instructions of a command
counted() {
    valgrind --tool=callgrind --callgrind-out-file=/dev/null "$@" 2>&1 >/dev/null | sed -n 's/.*Collected : //p'
}

# (long - short) / instructions
per_instruction() { python3 -c "print(f'{($2 - $1) / $3:.0f}')"; }
per_second() { python3 -c "print(f'{$3 / max($2 - $1, 0.001) / 1e6:.1f}')"; }

bochs_run() {
    cat >bochsrc <<END
megs: 32
config_interface: textconfig
display_library: rfb, options="timeout=0"
romimage: file=/usr/share/bochs/BIOS-bochs-latest
vgaromimage: file=/usr/share/vgabios/vgabios.bin
floppya: 1_44=$1, status=inserted
boot: floppy
log: bochs.log
sound: waveoutdrv=dummy, waveindrv=dummy, midioutdrv=dummy
END
    rm -f ./*.lock
    printf 'c\nq\n' | bochs -q -f bochsrc
}

for name in registers memory; do
    round=$(round_of $name)
    if command -v valgrind >/dev/null; then
        few=10000 many=60000
        for n in $few $many; do
            loop $name $n image $n.img
            solo[n]=$(counted "$program" solo $n.img)
            "$program" solo $n.img --journal $n.journal >/dev/null
            replay[n]=$(counted "$program" replay $n.img $n.journal)
        done
        instructions=$(((many - few) * round))
        echo "$name: solo $(per_instruction ${solo[few]} ${solo[many]} $instructions), replay" \
            "$(per_instruction ${replay[few]} ${replay[many]} $instructions) host instructions a guest instruction"
    fi
    # a run ends after 10,000,000 instructions
    few=100 many=$((9900000 / round))
    loop $name $few image few.img
    loop $name $many image many.img
    for k in few many; do "$program" solo $k.img --journal $k.journal >/dev/null; done
    instructions=$(((many - few) * round))
    ours=$(per_second "$(user_of "$program" solo few.img)" "$(user_of "$program" solo many.img)" $instructions)
    again=$(per_second "$(user_of "$program" replay few.img few.journal)" "$(user_of "$program" replay many.img many.journal)" $instructions)
    echo "$name: solo $ours, replay $again million instructions a second"
    if command -v bochs >/dev/null; then
        few=1000000 many=11000000
        for n in $few $many; do loop $name $n boot $n.boot; done
        instructions=$(((many - few) * round))
        theirs=$(per_second "$(user_of bochs_run $few.boot)" "$(user_of bochs_run $many.boot)" $instructions)
        echo "$name: Bochs $theirs million instructions a second"
    fi
done
echo "start of a.img: $(user_of "$program" solo "$top/examples/a.img") s of user time"
