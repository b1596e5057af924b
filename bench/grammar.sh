#!/usr/bin/env bash
# bench/grammar.sh [COUNT [SEED [PROGRAM]]]: compares the program with the plain reader bench/grammar.rs, on COUNT texts that
# are made from the examples by changes here and there; 1,000 without a word. A text that is wrong has to have the same first
# fault, at the same place, by both; another one has to be replayed, or to be not built. Without a third word the program is
# crates/xpsim/out/xpsim. It needs rustc.
set -u

here="$(dirname "$(readlink -f "${BASH_SOURCE[0]}")")"
top="$(dirname "$here")"
count="${1:-1000}"
seed="${2:-1}"
program="${3:-$top/crates/xpsim/out/xpsim}"
if [ ! -x "$program" ]; then
    echo "bench/grammar.sh: $program isn't built" >&2
    exit 1
fi
if ! command -v rustc >/dev/null 2>&1; then
    echo "bench/grammar.sh: there is no rustc" >&2
    exit 1
fi
program="$(readlink -f "$program")"
folder="$(mktemp -d)" || exit 1
trap 'rm -rf "$folder"' EXIT

rustc -O --edition 2021 -o "$folder/grammar" "$here/grammar.rs" || exit 1
# The texts, with a byte 1 between them: the short examples, and all forms of lines.
{
    for scenario in "$top"/examples/*.xp; do
        [ "$(wc -c <"$scenario")" -lt 1000 ] || continue
        # few turns, so that a text that is right is soon replayed
        sed 's/^rounds 20000/rounds 200/' "$scenario"
        printf '\1'
    done
    printf '%s\n' 'xpsim 1' 'partitions 3' 'budget 5' 'check 4096' 'minor 0 2' 'minor 1 2' \
        'warm 0 1 2 entries 1 limit 1008' 'fault 0 get 1 at 2' 'stop 1 put 3' 'restart 2 turn 7' 'poke 0 1 225 99' \
        'script 0' 'register 1 0 entries 4 limit 112' 'connected 1 0' 'send 1 0 3*61+62 nowait notify' 'drain 1 0' \
        'unregister 1 0' 'closed 1 0' 'script 0' 'net 6*ff+85*33' 'frames 1' 'deactivate 1' 'activate 1' 'leave' \
        'idle 9' 'offline' 'online' 'schedule' 'turns 2 4' 'rounds 3'
} >"$folder/texts"
"$folder/grammar" compare "$program" "$count" "$seed" <"$folder/texts"
