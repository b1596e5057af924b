#!/usr/bin/env bash
# bench/soak.sh [PROGRAM [COUNT]]: replays COUNT scenarios of eight partitions, 1,000 without a
# word, that are made by their numbers: with checks, partitions that are offline, stops, restarts,
# copies that fail, channels that close and open again. Each has to end with status 0, and its
# report to keep what is promised: each message that is taken was accepted under its number, in its
# order; fronts are those of the releases; notices are as many as were asked for, and told as
# delivered only once acknowledged. The program is crates/xpsim/out/xpsim without a word;
# bench/soak.rs makes and checks, and needs rustc.
set -u

here="$(dirname "$(readlink -f "${BASH_SOURCE[0]}")")"
program="${1:-$(dirname "$here")/crates/xpsim/out/xpsim}"
count="${2:-1000}"
if [ ! -x "$program" ]; then
    echo "bench/soak.sh: $program isn't built" >&2
    exit 1
fi
folder="$(mktemp -d)" || exit 1
trap 'rm -rf "$folder"' EXIT
if ! rustc -O --edition 2021 -o "$folder/soak" "$here/soak.rs" 2>"$folder/rustc"; then
    echo "bench/soak.sh: rustc didn't build bench/soak.rs" >&2
    tail -n 5 "$folder/rustc" >&2
    exit 1
fi
"$folder/soak" run "$(readlink -f "$program")" "$count"
