#!/bin/sh
# Counts the instructions of the primitives and of whole runs, and prints them and their ratios. Run by hand.
# Instruction counts (valgrind --tool=callgrind) are compared, since other work on the machine does not change them.
# `time` then shows the same ratios in seconds, on a machine that does nothing else. Whole runs are also compared with
# plain_core.c, by time and by instructions.
set -eu
cd "$(dirname "$0")/.."
. bench/built.sh
take_words bench/compare.sh '' "$@"
bytes=16777216
reads=4000
events=65536
samples=$((bytes / 64))
interrupts=1000000
visits=20000000
loops=$(built bench)
program=$(built rng_tool)
room=$(mktemp -d)
trap 'rm -rf "$room"' EXIT

awk -v n="$reads" 'BEGIN {
    print "rngscript 1\ncpus 1\ncaller 0"
    for (i = 0; i < n; i++) print "write 616263\nread 4096 4"
    print "end"
}' >"$room/script"

# As many events, and as many bytes, as a script may have: interrupts and writes in turn.
awk 'BEGIN {
    for (i = 0; i < 28; i++) digits = digits "0123456789abcdef"
    print "rngscript 1\ncpus 1\ncaller 0"
    for (i = 0; i < 32768; i++) print "irq 18446744073709551615 18446744073709551615\nwrite " digits "0123456789"
    print "end"
}' >"$room/long_script"

# As many bytes of reads as a script may have, and writes for its other events: 33 MiB of transcript.
awk 'BEGIN {
    print "rngscript 1\ncpus 1\ncaller 0"
    for (i = 0; i < 4096; i++) print "read 4096 4"
    for (i = 0; i < 32768; i++) print "write 616263"
    print "end"
}' | "$program" run >"$room/long_transcript"

# As many bytes as the kernel may read in a script.
awk 'BEGIN {
    print "rngscript 1\ncpus 1\ncaller 0\ncredit 256"
    for (i = 0; i < 16; i++) print "kread 1048576"
    print "end"
}' >"$room/large_reads"

# As many events as a script may have, each of them small: the mix of a load.
awk -v n="$events" 'BEGIN {
    print "rngscript 1\ncpus 1\ncaller 0\ncredit 256"
    for (j = 0; j < n - 1; j++) {
        k = j % 8
        bytes = 1 + (17 * j) % 100
        if (k == 0) print "read " bytes " 0"
        else if (k == 1) print "vread " bytes " 0"
        else if (k == 2) print "kread " bytes
        else if (k == 3) print "int64"
        else if (k == 4) print "irq " j " 0"
        else if (k == 5) print "write 0011223344556677"
        else if (k == 6) print "uread " bytes
        else print "reseed"
    }
    print "end"
}' >"$room/small_events"

# instructions COMMAND..: the number of instructions that a command takes from start to end, on standard input.
instructions() {
    valgrind --tool=callgrind --callgrind-out-file=/dev/null "$@" 2>&1 >"$room/out" |
        awk '/Collected/ { print $NF }'
}

# of_each TURN: a script of as many events as a script may have. The awk function turn(j) in TURN prints event j.
of_each() {
    awk -v n="$events" "$1"'
    BEGIN {
        print "rngscript 1\ncpus 1\ncaller 0\ncredit 256"
        for (j = 0; j < n - 1; j++) print turn(j)
        print "end"
    }'
}

of_each 'function turn(j) { return "irq " j " 0" }' >"$room/interrupts"
of_each 'function turn(j) { return "int64" }' >"$room/integers"
of_each 'function turn(j) { return "vread 16 0" }' >"$room/vreads"
of_each 'function turn(j) { return j % 2 ? "read 16 0" : "kread 16" }' >"$room/reads"
of_each 'function turn(j) { return "tick" }' >"$room/ticks"
of_each 'function turn(j) { return "bits" }' >"$room/bits"
of_each 'function turn(j) { return "at " j }' >"$room/moments"

# seconds COMMAND..: the least of five runs on the script.
seconds() {
    for _ in 1 2 3 4 5; do
        { command time -f %e "$@" <"$room/script" >"$room/out"; } 2>&1
    done | sort -n | head -n 1
}

# nanoseconds WORD NUMBER: the seconds of a loop, as nanoseconds for each of its turns.
nanoseconds() {
    seconds "$loops" "$1" "$2" | awk -v number="$2" '{ printf "%.1f", $1 * 1e9 / number }'
}

# beyond_start WORD NUMBER: the instructions of a loop, without those that the program takes to start and to end.
beyond_start() {
    echo $(($(instructions "$loops" "$1" "$2") - $(instructions "$loops" "$1" 0)))
}

# one_read MAKER BYTES TIMES: the instructions of one read of so many bytes.
one_read() {
    echo $(($(beyond_start "$1-$2" "$3") / $3))
}

# reads_beside_bare BYTES TIMES LIMIT: reads of BYTES bytes, and their ratios to a bare generator and to a bare fill.
reads_beside_bare() {
    bare=$(one_read bare "$1" "$2")
    printf '%-52s %12d\n' "bare generator and fill of $1 bytes" "$bare"
    for maker in fill kernel user; do
        made=$(one_read "$maker" "$1" "$2")
        printf '%-52s %12d\n' "$maker read of $1 bytes" "$made"
        ratio "$maker read of $1 bytes to bare" "$made" "$bare" "$3"
    done
}

# of_text WORD FILE: the instructions of a loop that goes over a text once, without those that the program takes to
# start, to read the text and to end.
of_text() {
    echo $(($(instructions "$loops" "$1" 1 <"$2") - $(instructions "$loops" "$1" 0 <"$2")))
}

# ratio NAME A B LIMIT: the ratio of A to B, with two digits.
ratio() {
    awk -v name="$1" -v a="$2" -v b="$3" -v limit="$4" 'BEGIN { printf "%-52s %6.2f  (%s)\n", name, a / b, limit }'
}

# The whole runs that are compared with other programs, each with its script.
whole_runs() {
    cat <<END
a load's mix:$room/small_events
interrupts:$room/interrupts
integers of 64 bits:$room/integers
vreads of 16 bytes:$room/vreads
reads of 16 bytes:$room/reads
ticks:$room/ticks
credits read:$room/bits
moments:$room/moments
16 reads of 1 MiB:$room/large_reads
a script of 16 MiB:$room/long_script
END
}

# beside NAME SCRIPT OTHER: `rng run` beside another program. Prints the ratio of instructions, and for each target of
# the output the ratios of the median wall seconds and of the median processor seconds, of 15 runs in turn.
beside() {
    printf '%-34s %6s' "$1" "$(echo "$(instructions "$program" run <"$2")" \
        "$(instructions "$3" <"$2")" | awk '{ printf "%.2f", $1 / $2 }')"
    for out in null pipe "$room/file"; do
        "$room/interleaved" 15 "$2" "$out" "$program" run -- "$3" |
            awk '{ printf "   %4.2f %4.2f", $1 / $2, $3 / $4 }'
    done
    echo
}

# beside_plain NAME SCRIPT: beside plain_core, which writes the same transcript.
beside_plain() {
    "$room/plain_core" <"$2" >"$room/plain"
    "$program" run <"$2" | cmp - "$room/plain" >&2
    beside "$1" "$2" "$room/plain_core"
}

# beside_duties NAME SCRIPT: beside plain_core with two of a run's duties.
beside_duties() {
    "$program" run <"$2" >"$room/ours"
    "$room/duties" <"$2" | cmp - "$room/ours" >&2
    beside "$1" "$2" "$room/duties"
}

# cost_of_duties SCRIPT: the cost of each duty for plain_core itself, and that of both, to /dev/null.
cost_of_duties() {
    for duty in reads_first locks duties; do
        "$room/interleaved" 15 "$1" null "$room/$duty" -- "$room/plain_core" |
            awk -v duty="$duty" '{ printf "%-36s %4.2f %4.2f\n", duty, $1 / $2, $3 / $4 }'
    done
}

# beside_kernel NAME SCRIPT: beside the kernel's own code, which writes the answers and bytes of the same transcript.
beside_kernel() {
    "$kernel" <"$2" >"$room/plain"
    "$program" run <"$2" | awk '/^0/ && $2 != "end" { print $3, $NF }' | cmp - "$room/plain" >&2
    beside "$1" "$2" "$kernel"
}

for name in plain_core plain_machine interleaved; do
    "${CC:-cc}" -O2 -o "$room/$name" "bench/$name.c"
done
"${CC:-cc}" -O2 -DREADS_FIRST -DLOCKS -o "$room/duties" bench/plain_core.c
"${CC:-cc}" -O2 -DREADS_FIRST -o "$room/reads_first" bench/plain_core.c
"${CC:-cc}" -O2 -DLOCKS -o "$room/locks" bench/plain_core.c

# Cases that the measured scripts leave out: the worked cases, if plain_core knows their events, and reads of whole
# blocks.
printf 'rngscript 1\ncpus 1\ncaller 0\nadd 00 256\ndevice 5 10\nvread 64 0\nvread 64 0\nvread 8 0\nend\n' >"$room/blocks.script"
"$program" run <"$room/blocks.script" >"$room/blocks.transcript"
for script in "$room/blocks.script" examples/worked/*.script; do
    if ! grep -q '^fork \|^inside ' "$script"; then
        "$room/plain_core" <"$script" | cmp - "${script%.script}.transcript" >&2
        "$room/duties" <"$script" | cmp - "${script%.script}.transcript" >&2
    fi
done

keystream=$(beyond_start keystream "$bytes")
plain=$(beyond_start plain "$bytes")
hash=$(beyond_start hash "$bytes")
bulk=$(beyond_start bulk "$samples")
updated=$(beyond_start updated "$samples")
mixed=$(beyond_start mixed "$samples")
interrupted=$(beyond_start interrupts "$interrupts")
direct=$(instructions "$loops" reads "$reads")
shown=$(instructions "$loops" shown "$reads")
run=$(instructions "$program" run <"$room/script")
cp "$room/out" "$room/transcript"
large=$(instructions "$program" run <"$room/large_reads")
small=$(instructions "$program" run <"$room/small_events")
script=$(of_text script "$room/long_script")
script_lines=$(of_text script_lines "$room/long_script")
transcript=$(of_text transcript "$room/long_transcript")
transcript_lines=$(of_text transcript_lines "$room/long_transcript")

echo "instructions"
printf '%-52s %12d\n' "keystream of $bytes bytes, chacha_blocks" "$keystream" \
    "keystream of $bytes bytes, plain loop" "$plain" \
    "BLAKE2s of $bytes bytes, and the zeros made" "$hash" \
    "BLAKE2s of $samples samples, many at once" "$bulk" \
    "BLAKE2s of $samples samples, one by one" "$updated" \
    "input pool: $samples samples mixed" "$mixed" \
    "fast pool: $interrupts interrupts mixed" "$interrupted" \
    "$reads writes and reads of 4,096 bytes, direct" "$direct" \
    "$reads writes and reads, direct, and their hexadecimal" "$shown" \
    "$reads writes and reads of 4,096 bytes, rng run" "$run" \
    "a script of 16 MiB, event_script" "$script" \
    "a script of 16 MiB, plain loop" "$script_lines" \
    "a transcript of 33 MiB, transcript_text" "$transcript" \
    "a transcript of 33 MiB, plain loop" "$transcript_lines"
ratio 'keystream: chacha_blocks to plain loop' "$keystream" "$plain" 'at most 1.11'
ratio 'BLAKE2s: instructions a byte' "$hash" "$bytes" 'no limit'
ratio 'samples: input pool to BLAKE2s, many at once' "$mixed" "$bulk" 'at most 1.10'
ratio 'samples: input pool to BLAKE2s, one by one' "$mixed" "$updated" 'no limit'
ratio 'samples: input pool to BLAKE2s and the zeros made' "$mixed" "$hash" 'no limit'
ratio 'samples: instructions of a mix into the input pool' "$mixed" "$samples" 'no limit'
ratio 'interrupts: instructions of one' "$interrupted" "$interrupts" 'no limit'
ratio 'reads: rng run to direct' "$run" "$direct" 'at most 1.95'
ratio 'rng run: instructions a byte of reads of 1 MiB' "$large" "$bytes" 'at most 21'
ratio 'rng run: instructions a small event' "$small" "$events" 'at most 6,500'
ratio 'scripts: event_script to plain loop' "$script" "$script_lines" 'at most 1.50'
ratio 'transcripts: transcript_text to plain loop' "$transcript" "$transcript_lines" 'at most 1.50'
ratio 'reads: rng run to direct with hexadecimal' "$run" "$shown" 'no limit'

echo "instructions of one read"
for bytes_read in 8 32 100; do
    reads_beside_bare "$bytes_read" 1000 'at most 1.30'
done
reads_beside_bare 1048576 4 'at most 1.15'

echo "seconds, the least of five"
printf '%-52s %12s\n' "keystream of $bytes bytes, chacha_blocks" "$(seconds "$loops" keystream "$bytes")" \
    "keystream of $bytes bytes, plain loop" "$(seconds "$loops" plain "$bytes")" \
    "BLAKE2s of $bytes bytes" "$(seconds "$loops" hash "$bytes")" \
    "$reads writes and reads of 4,096 bytes, direct" "$(seconds "$loops" reads "$reads")" \
    "$reads writes and reads of 4,096 bytes, rng run" "$(seconds "$program" run)"

# of_run FORMAT FILE: the output of `time` for a run of a script.
of_run() {
    { command time -f "$1" "$program" run <"$2" >"$room/out"; } 2>&1
}

echo "rng run: start-up and memory"
printf '%-52s %12s\n' "the least seconds of five runs of two events" \
    "$(for _ in 1 2 3 4 5; do of_run %e examples/first.script; done | sort -n | head -n 1)" \
    "KiB of 16 reads of 1 MiB" "$(of_run %M "$room/large_reads")" \
    "KiB of $events small events" "$(of_run %M "$room/small_events")" \
    "seconds of 16 reads of 1 MiB" "$(of_run %e "$room/large_reads")" \
    "seconds of $events small events" "$(of_run %e "$room/small_events")"

units='instructions; wall and processor seconds to /dev/null, a pipe, a file'
echo "rng run to plain_core: $units"
whole_runs | while IFS=: read -r name text; do beside_plain "$name" "$text"; done
echo "rng run to plain_core with all events read first, and a lock for each visit: $units"
whole_runs | while IFS=: read -r name text; do beside_duties "$name" "$text"; done
echo "plain_core with one of these duties, or both, to plain_core: interrupts, wall and processor seconds to /dev/null"
cost_of_duties "$room/interrupts"
"$room/plain_machine" |
    awk '{ printf "%-52s %12s\n%-52s %12s\n", "nanoseconds of a new page", $1, "of a locked instruction", $2 }'

kernel=tools/kernel/out/harness
if [ -x "$kernel" ]; then
    echo "rng run to the kernel's own code in user space, which writes no steps: $units"
    whole_runs | while IFS=: read -r name text; do beside_kernel "$name" "$text"; done
else
    echo "beside the kernel's own code: not measured, since tools/kernel/run has not made $kernel"
fi

echo "nanoseconds of each, by the least of five"
printf '%-52s %12s\n' "BLAKE2s of a sample, many at once" "$(nanoseconds bulk $((16 * samples)))" \
    "BLAKE2s of a sample, one by one" "$(nanoseconds updated $((16 * samples)))" \
    "input pool: a sample mixed" "$(nanoseconds mixed $((16 * samples)))" \
    "fast pool: an interrupt mixed" "$(nanoseconds interrupts $((200 * interrupts)))" \
    "lane: taken, an interrupt mixed, and put" "$(nanoseconds visits "$visits")" \
    "Mutex: locked, and unlocked" "$(nanoseconds locks "$visits")"

# The counted runs were also right: the last bytes of the last read are those that the direct calls gave.
from_run=$(awk '/ read / { last = $NF } END { print substr(last, length(last) - 15) }' "$room/transcript")
from_loop=$("$loops" reads "$reads" | awk '{ print $NF }')
[ "$from_run" = "$from_loop" ] || {
    echo "the run and the direct calls read other bytes: $from_run $from_loop" >&2
    exit 1
}
