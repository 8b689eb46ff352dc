#!/bin/sh
# The cost of checking and of replaying a transcript, beside that of the run that wrote it. Run by hand. Instructions
# are counted (valgrind --tool=callgrind). Seconds are medians of runs in turn, on a machine that does nothing else: the
# run writes to /dev/null, to a pipe and to a file, the check reads the pair from a file, and its one line goes to
# the same place as the run's output. BENCH_RUNS is the number of runs, and BENCH_RNG names another build of the program.
set -eu
cd "$(dirname "$0")/.."
. bench/built.sh
take_words bench/checks.sh '' "$@"
program=$(realpath "${BENCH_RNG:-$(built rng_tool)}")
runs=${BENCH_RUNS:-41}
room=$(mktemp -d)
trap 'rm -rf "$room"' EXIT
gcc -O2 -Wall -Wextra -o "$room/interleaved" bench/interleaved.c

# small(j): event j of the mix of a load.
small='
    function small(j,  bytes) {
        bytes = 1 + (17 * j) % 100
        if (j % 8 == 0) print "read " bytes " 0"
        else if (j % 8 == 1) print "vread " bytes " 0"
        else if (j % 8 == 2) print "kread " bytes
        else if (j % 8 == 3) print "int64"
        else if (j % 8 == 4) print "irq " j " 0"
        else if (j % 8 == 5) print "write 0011223344556677"
        else if (j % 8 == 6) print "uread " bytes
        else print "reseed"
    }'

# short(j): event j of reads and integers of 8 to 16 bytes.
short='
    function short(j) {
        if (j % 4 == 0) print "read " 8 + j % 9 " 0"
        else if (j % 4 == 1) print "kread " 8 + j % 9
        else if (j % 4 == 2) print "uread " 8 + j % 9
        else print "int64"
    }'

# alone PROGRAM: a script of one caller, with the events that the awk function events() in PROGRAM prints.
alone() {
    awk "$1"'
    BEGIN {
        print "rngscript 1\ncpus 1\ncaller 0\ncredit 256"
        events()
        print "end"
    }'
}

# of_second PROGRAM: a script of two callers, of which the second makes the events of events(). Its check compares
# by the clauses.
of_second() {
    awk "$1"'
    BEGIN {
        print "rngscript 1\ncpus 1\ncaller 0\ncredit 256\nfork 1\ncaller 1"
        events()
        print "end"
    }'
}

# of_eight PROGRAM: a script of 8 callers, each on its own CPU, of which each makes the events of events().
of_eight() {
    awk "$1"'
    BEGIN {
        print "rngscript 1\ncpus 8\ncaller 0\ncredit 256"
        for (c = 1; c < 8; c++) print "fork " c
        for (c = 0; c < 8; c++) {
            if (c > 0) print "caller " c
            print "on " c
            events()
        }
        print "end"
    }'
}

# reads COUNT EVENT: a script of one caller with COUNT times the same event.
reads() {
    alone 'function events(  j) { for (j = 0; j < '"$1"'; j++) print "'"$2"'" }'
}

reads 16 'read 1048576 0' >"$room/bulk"
reads 16 'kread 1048576' >"$room/kernel_bulk"
reads 256 'read 65536 0' >"$room/long"
reads 4096 'read 4096 0' >"$room/page"
reads 65000 'read 200 0' >"$room/middle"
alone "$small"'function events(  j) { for (j = 0; j < 65535; j++) small(j) }' >"$room/mix"
alone "$short"'function events(  j) { for (j = 0; j < 65000; j++) short(j) }' >"$room/short"
of_second 'function events(  j) { for (j = 0; j < 16; j++) print "read 1048576 0" }' >"$room/bulk_of_2"
of_eight "$small"'function events(  j) { for (j = 0; j < 8189; j++) small(j) }' >"$room/mix_of_8"
of_eight "$short"'function events(  j) { for (j = 0; j < 8125; j++) short(j) }' >"$room/short_of_8"

# instructions WORD FILE: the number of instructions that the program takes from start to end.
instructions() {
    valgrind --tool=callgrind --callgrind-out-file=/dev/null "$program" "$1" <"$2" 2>&1 >/dev/null |
        awk '/Collected/ { print $NF }'
}

# counted NAME FILE: the instructions of a run, of a check and of a replay, and their ratios.
counted() {
    run=$(instructions run "$2")
    check=$(instructions check "$2.pair")
    replay=$(instructions replay "$2.pair")
    awk -v name="$1" -v run="$run" -v check="$check" -v replay="$replay" 'BEGIN {
        printf "%-32s %12d %12d %12d %6.2f %6.2f\n", name, run, check, replay, check / run, replay / check
    }'
}

# timed NAME FILE: the milliseconds of a run and of a check, and their ratio, for each target of the run's output.
timed() {
    for out in null pipe "$room/out"; do
        "$room/interleaved" "$runs" "$2" "$out" "$program" run -- "$program" check -- "$2.pair"
    done | awk -v name="$1" '
        { ms = ms sprintf(" %5.1f %5.1f", $1 * 1000, $2 * 1000); ratios = ratios sprintf(" %5.2f", $2 / $1) }
        END { printf "%-32s%s%s\n", name, ms, ratios }'
}

# each_pair FUNCTION: the function on each script.
each_pair() {
    "$1" '16 reads of 1 MiB' "$room/bulk"
    "$1" 'the same for the kernel' "$room/kernel_bulk"
    "$1" '256 reads of 64 KiB' "$room/long"
    "$1" '4,096 reads of 4 KiB' "$room/page"
    "$1" '65,000 reads of 200 bytes' "$room/middle"
    "$1" '65,535 events of the mix' "$room/mix"
    "$1" '65,000 short events' "$room/short"
    "$1" '16 of 1 MiB by a second caller' "$room/bulk_of_2"
    "$1" 'the mix by 8 callers' "$room/mix_of_8"
    "$1" 'short events by 8 callers' "$room/short_of_8"
}

# pair NAME FILE: a script with its transcript, for which the check has to print yes.
pair() {
    "$program" run <"$2" >"$room/transcript"
    cat "$2" "$room/transcript" >"$2.pair"
    [ "$("$program" check <"$2.pair")" = yes ]
}

each_pair pair
echo 'instructions: run, check, replay; check to run, replay to check'
each_pair counted
echo 'milliseconds of a run and of a check, to /dev/null, a pipe, a file; their ratios'
each_pair timed
