#!/bin/bash
# Builds the program `steps`, which runs images on the proved engine, and a plain Rust interpreter of the
# flat machine (bench/steps/src). Both make the same steps on seven loops, in turn; it stops if they print
# different states, and prints how many steps each makes in a second of user time, the best of the rounds.
# Usage: bench/steps.sh [ROUNDS] [MILLIONS], where so many million steps are made in each round.
set -e
cd "$(dirname "$0")/.."
rounds=${1:-5}
millions=${2:-20}
mkdir -p target/bench
plain=target/bench/steps
rustc -O -C target-cpu=x86-64-v2 --edition 2021 bench/steps/src/main.rs -o $plain
proved=crates/steps/out/steps
$plain image vector crates/steps/data/steps.img
(cd crates/steps && rt run -- data/steps.img 0 >/dev/null)
TIMEFORMAT=%U

# Runs a command with its output in a file, and keeps the least user time that was seen for a name.
declare -A best
timed() {
    local name=$1 output=$2 seconds
    shift 2
    seconds=$({ time "$@" >"$output"; } 2>&1)
    best[$name]=$(printf '%s\n' "$seconds" ${best[$name]} | sort -n | head -1)
}

printf '%-8s %14s %14s %16s\n' loop 'proved/s' 'plain/s' 'proved / plain'
for loop in scalar memory vector jump within across add; do
    image=target/bench/$loop.img
    $plain image $loop $image
    unset "best[proved]" "best[plain]"
    for ((round = 0; round < rounds; round++)); do
        timed proved target/bench/$loop.proved $proved $image $millions
        timed plain target/bench/$loop.plain $plain run $image $millions
        cmp target/bench/$loop.proved target/bench/$loop.plain
    done
    awk -v name=$loop -v n=$millions -v proved=${best[proved]} -v plain=${best[plain]} 'BEGIN {
        printf "%-8s %13.2fM %13.2fM %15.2f times as long\n", name, n / proved, n / plain, proved / plain
    }'
done
