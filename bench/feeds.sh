#!/bin/sh
# Interrupt samples of feeders in threads. Run by hand. The words name the runs; without words both are made:
#   same    `rng feed 0 16 10000` 200 times, beside BENCH_LOOPS busy loops, by default twice as many as processors; it
#           ends non-zero if a run writes another line, fails, or has 20 MB resident
#   speed   160,000 samples of 16 feeders through the queue, and the same by one caller without it, in turn
# BENCH_RNG and BENCH_PROGRAM can name other builds of the programs, and BENCH_TIMES how often they run. BENCH_UNDER is
# put before each program that `speed` measures: `chrt --rr 1`, as root, keeps the machine's other work away.
set -eu
cd "$(dirname "$0")/.."
. bench/built.sh
take_words bench/feeds.sh 'same speed' "$@"
room=$(mktemp -d)
loops=
one=
trap 'for one in $loops; do kill "$one"; done; rm -rf "$room"' EXIT

same() {
    program=${BENCH_RNG:-$(built rng_tool)}
    times=${BENCH_TIMES:-200}
    for _ in $(seq "${BENCH_LOOPS:-$((2 * $(nproc)))}"); do
        while :; do :; done &
        loops="$loops $!"
    done
    echo 'feeders 16 samples 160000 dumps 156 bits 256' >"$room/want"
    : >"$room/all"
    for number in $(seq "$times"); do
        { command time -f '%M %e %U %S' -o "$room/said" timeout 300 "$program" feed 0 16 10000; } >"$room/out"
        cmp -s "$room/want" "$room/out" || {
            echo "run $number: $(cat "$room/out")" >&2
            exit 1
        }
        cat "$room/said" >>"$room/all"
    done
    awk -v line="$(cat "$room/want")" -v loops="$(echo "$loops" | wc -w)" -v load="$(cut -d' ' -f1 /proc/loadavg)" '
        $1 > most { most = $1 }
        { seconds += $2; worked += $3 + $4; if (NR == 1 || $2 < least) least = $2; if ($2 > longest) longest = $2 }
        END {
            printf "%d runs beside %d busy loops, load %s, each: %s\n", NR, loops, load, line
            printf "resident at most %d KiB, %.2f to %.2f s a run, %.2f on the average, %.2f s of processors\n",
                most, least, longest, seconds / NR, worked / NR
            exit most * 1024 >= 20000000
        }' "$room/all"
}

# once WORD NUMBER: one run of a loop, in nanoseconds, with the seconds of the processors in $room/said.
once() {
    begun=$(date +%s%N)
    # shellcheck disable=SC2086
    command time -f '%U %S' -o "$room/said" ${BENCH_UNDER:-} "$program" "$1" "$2" >"$room/out"
    echo $(($(date +%s%N) - begun))
}

# The time that a program takes to start and to end is subtracted.
speed() {
    program=${BENCH_PROGRAM:-$(built bench)}
    times=${BENCH_TIMES:-15}
    for _ in $(seq "$times"); do
        for run in 'feeds 10000' 'irqs 10000' 'irqs 1'; do
            # shellcheck disable=SC2086
            echo "$run $(once $run) $(cat "$room/said")" >>"$room/times"
        done
    done
    echo "160,000 samples of 16 feeders, $times runs of each in turn on $(nproc) processors, load $(cut -d' ' -f1 /proc/loadavg)"
    sort -k 3n "$room/times" | awk '
        $2 == 1 && !start { start = $3 }
        $2 > 1 { n[$1]++; ns[$1, n[$1]] = $3; user[$1] += $4; system_s[$1] += $5 }
        END {
            for (word in n) {
                least = (ns[word, 1] - start) / 1e9; middle = (ns[word, int((n[word] + 1) / 2)] - start) / 1e9
                printf "%-6s least %7.1f ms, %9.0f samples a second; median %7.1f ms, %9.0f; processors %5.1f ms, system %5.1f\n",
                    word, 1e3 * least, 160000 / least, 1e3 * middle, 160000 / middle,
                    1e3 * user[word] / n[word], 1e3 * system_s[word] / n[word]
            }
        }'
}

[ $# -gt 0 ] || set -- same speed
for word; do "$word"; done
