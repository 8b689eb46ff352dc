#!/bin/sh
# The cost of a request to a live core, by the client in C and two pipes. Run by hand. Seven sessions each, in turn, of
# 20,000 reads of 16 bytes, and of 14 reads of 1 MiB, one at a time. Prints the median and the least of each session,
# and then the median of the medians and the least of all. BENCH_RNG names another build of the program, BENCH_TIMES is
# the number of sessions, and BENCH_UNDER is put before each, as in bench/threads.sh.
set -eu
cd "$(dirname "$0")/.."
. bench/built.sh
take_words bench/live.sh '' "$@"
program=$(realpath "${BENCH_RNG:-$(built rng_tool)}")
times=${BENCH_TIMES:-7}
room=$(mktemp -d)
trap 'rm -rf "$room"' EXIT
gcc -O2 -Wall -Wextra -o "$room/live_loop" bench/live_loop.c

# shellcheck disable=SC2086
session() {
    ${BENCH_UNDER:-} "$room/live_loop" "$program" "$1" "$2" >>"$room/$1"
}

# row NAME SIZE: the sessions of a size, and their medians and least times.
row() {
    printf '%-36s' "$1"
    awk '{ printf " %s/%s", $1, $2 }' "$room/$2"
    sort -n "$room/$2" | awk '
        { median[NR] = $1; if (NR == 1 || $2 < least) least = $2 }
        END { printf "; median %.1f us, least %.1f us\n", median[int((NR + 1) / 2)], least }'
}

for _ in $(seq "$times"); do
    session 16 20000
    session 1048576 14
done
echo "median/least of each session in us, $times sessions of each in turn on $(nproc) processors, load $(cut -d' ' -f1 /proc/loadavg)"
row '20,000 reads of 16 bytes' 16
row '14 reads of 1 MiB' 1048576
