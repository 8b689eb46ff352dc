#!/bin/sh
# The cost of reads by callers that share one CPU's generator. Run by hand. The words name the measurements; without
# words all of them are made:
#   reads    instructions of one read, of few bytes and of 1 MiB, for the kernel and for a user
#   load     instructions of an event in the mix of a load
#   eight    seconds of 8 callers that each read 1 MiB again and again on CPU 0, beside one caller that reads as much
# No text is written in any of it. BENCH_PROGRAM can name another build of the program, and BENCH_UNDER is put before
# each run that is timed, as in bench/threads.sh.
set -eu
cd "$(dirname "$0")/.."
. bench/built.sh
take_words bench/one_cpu.sh 'reads load eight' "$@"
room=$(mktemp -d)
trap 'rm -rf "$room"' EXIT
times=15
turns=10

loops=${BENCH_PROGRAM:-$(built bench)}

# script NUMBER TURN: one caller on a ready core makes NUMBER events, as the awk function turn(j) in TURN prints them.
script() {
    awk -v number="$1" "$2"'
    BEGIN {
        print "rngscript 1\ncpus 1\ncaller 0\ncredit 256"
        for (j = 0; j < number; j++) print turn(j)
        print "end"
    }'
}

# instructions TIMES FILE: the number of instructions to read a script once, and to run it TIMES times.
instructions() {
    valgrind --tool=callgrind --callgrind-out-file=/dev/null "$loops" runs "$1" <"$2" 2>&1 >"$room/out" |
        awk '/Collected/ { print $NF }'
}

# each NUMBER TURN: the instructions of one of NUMBER events, without those of a run that has none of these events.
each() {
    script 0 "$2" >"$room/none"
    script "$1" "$2" >"$room/script"
    all=$(($(instructions 1 "$room/script") - $(instructions 0 "$room/script")))
    none=$(($(instructions 1 "$room/none") - $(instructions 0 "$room/none")))
    echo $(((all - none) / $1))
}

reads() {
    echo "instructions of one read, with its line"
    for bytes in 8 16 32 33 64 96 128 1048576; do
        [ "$bytes" -le 128 ] && number=8000 || number=4
        printf '%-44s %12d\n' "kernel, $bytes bytes" "$(each "$number" "function turn(j) { return \"kread $bytes\" }")" \
            "user, $bytes bytes" "$(each "$number" "function turn(j) { return \"read $bytes 0\" }")"
    done
}

load() {
    mix='
        function turn(j,  k, n) {
            k = j % 8; n = 1 + (17 * j) % 100
            if (k == 0) return "read " n " 0"
            if (k == 1) return "vread " n " 0"
            if (k == 2) return "kread " n
            if (k == 3) return "int64"
            if (k == 4) return "irq " j " 0"
            if (k == 5) return "write 0011223344556677"
            return k == 6 ? "uread " n : "reseed"
        }'
    printf '%-44s %12d\n' "instructions of an event of a load's mix" "$(each 64000 "$mix")"
}

# large CALLERS: 16 reads of 1 MiB on CPU 0 of a ready core, the same number by each of CALLERS callers.
large() {
    awk -v callers="$1" 'BEGIN {
        print "rngscript 1\ncpus 1\ncaller 0\ncredit 256"
        for (c = 1; c < callers; c++) print "fork " c
        for (c = 0; c < callers; c++) {
            if (c > 0) print "caller " c
            for (j = 0; j < 16 / callers; j++) print "kread 1048576"
        }
        print "end"
    }'
}

# least NUMBER FILE: of several runs, the least nanoseconds to read a script and run it NUMBER times.
least() {
    for _ in $(seq "$times"); do
        begun=$(date +%s%N)
        # shellcheck disable=SC2086
        GLIBC_TUNABLES=${at_hand:-} ${BENCH_UNDER:-} "$loops" runs "$1" <"$2" >"$room/out"
        echo $(($(date +%s%N) - begun))
    done | sort -n | head -n 1
}

# eight_with: the cost of a run by one caller and by eight.
eight_with() {
    for callers in 1 8; do
        large "$callers" >"$room/large"
        took=$((($(least $((turns + 1)) "$room/large") - $(least 1 "$room/large")) / turns))
        awk -v callers="$callers" -v took="$took" 'BEGIN { printf "%-44s %9.1f ms\n", "callers: " callers, took / 1e6 }'
    done
}

eight() {
    echo "16 reads of 1 MiB on CPU 0, the least of $times, on $(nproc) processors"
    echo "with memory that the system gives anew for each run"
    eight_with
    # So the program keeps the memory of one run, and the next run takes it.
    at_hand=glibc.malloc.mmap_threshold=4294967296:glibc.malloc.trim_threshold=8589934592:glibc.malloc.top_pad=67108864
    echo "with memory that is at hand"
    eight_with
}

[ $# -gt 0 ] || set -- reads load eight
for word; do "$word"; done
