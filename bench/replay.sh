#!/usr/bin/env bash
# bench/replay.sh [PROGRAM]: how fast PROGRAM replays, and how much memory it takes; without a word the built program
# crates/xpsim/out/xpsim. It makes its scenarios itself:
#   idle  16,000,000 written turns: a take that no message comes for, beside a partition that has ended
#   busy  22,000 messages sent, taken and released through a queue of 8 entries, in 16,000,000 written turns
#   pairs 5,500 messages in each of four pairs of partitions, in 16,000,000 written turns
#   long  16,000 messages of 1,008 bytes, each of which fills the queue, in 16,000,000 written turns
#   cold  eight partitions that boot, meet each other and wait: 400,000 written turns, of which all are made
#   again a channel that is opened and closed 8,000 times, in 16,000,000 written turns
# Where rustc is there, bench/baseline.rs replays the first two: a plain program that proves nothing, keeps no history and
# knows two partitions alone.
# Times are processor seconds, of the program and of the system for it. Other load makes them longer.
set -u

here="$(dirname "$(readlink -f "${BASH_SOURCE[0]}")")"
program="${1:-$(dirname "$here")/crates/xpsim/out/xpsim}"
if [ ! -x "$program" ]; then
    echo "bench/replay.sh: $program isn't built" >&2
    exit 1
fi
program="$(readlink -f "$program")"
folder="$(mktemp -d)" || exit 1
trap 'rm -rf "$folder"' EXIT

# written_turns NAME: how many turns the schedule of a scenario has.
written_turns() {
    case "$1" in cold) echo 400000 ;; *) echo 16000000 ;; esac
}

make_idle() {
    printf '%s\n' 'xpsim 1' 'partitions 2' 'warm 0 1 0 entries 4 limit 112' 'script 1' 'take 0 0' 'schedule' 'rounds 8000000'
}

make_busy() {
    awk 'BEGIN {
        messages = 22000
        print "xpsim 1\npartitions 2\nwarm 0 1 0 entries 8 limit 112\nscript 0"
        for (k = 0; k < messages; k++) print "send 1 0 6869"
        print "script 1"
        for (k = 0; k < messages; k++) print "take 0 0\nrelease 0 0 " k
        print "schedule\nrounds 8000000"
    }'
}

make_pairs() {
    awk 'BEGIN {
        messages = 5500
        print "xpsim 1\npartitions 8"
        for (p = 0; p < 8; p += 2) print "warm " p " " p + 1 " 0 entries 8 limit 112"
        for (p = 0; p < 8; p += 2) {
            print "script " p
            for (k = 0; k < messages; k++) print "send " p + 1 " 0 6869"
            print "script " p + 1
            for (k = 0; k < messages; k++) print "take " p " 0\nrelease " p " 0 " k
        }
        print "schedule\nrounds 2000000"
    }'
}

make_long() {
    awk 'BEGIN {
        messages = 16000
        print "xpsim 1\npartitions 2\nminor 0 2\nminor 1 2\nwarm 0 1 0 entries 1 limit 1008\nscript 0"
        for (k = 0; k < messages; k++) print "send 1 0 1008*61"
        print "script 1"
        for (k = 0; k < messages; k++) print "take 0 0\nrelease 0 0 " k
        print "schedule\nrounds 8000000"
    }'
}

make_cold() {
    awk 'BEGIN {
        print "xpsim 1\npartitions 8"
        for (p = 0; p < 8; p++) print "script " p "\nidle 60000"
        print "schedule\nrounds 50000"
    }'
}

make_again() {
    awk 'BEGIN {
        print "xpsim 1\npartitions 2\nscript 0"
        for (k = 0; k < 8000; k++) print "register 1 0 entries 4 limit 112\nconnected 1 0\nunregister 1 0\nclosed 1 0"
        print "script 1\nregister 0 0 entries 4 limit 112"
        for (k = 0; k < 8000; k++) print "closed 0 0"
        print "schedule\nrounds 8000000"
    }'
}

. "$here/measure.sh"

line() { # who seconds KiB turns
    local memory="?"
    [ "$3" = "?" ] || memory="$(awk -v k="$3" 'BEGIN { printf "%.0f", k / 1024 }')"
    awk -v who="$1" -v s="$2" -v m="$memory" -v t="$4" 'BEGIN {
        rate = s > 0 ? sprintf("%.1f", t / s / 1000000) : "?"
        printf "  %-9s %6.2f s  %6s million turns a second  %5s MiB at most\n", who, s, rate, m
    }'
}

baseline=""
if command -v rustc >/dev/null 2>&1; then
    if rustc -O --edition 2021 -o "$folder/baseline" "$here/baseline.rs" 2>"$folder/rustc"; then
        baseline="$folder/baseline"
    else
        echo "bench/replay.sh: rustc didn't build bench/baseline.rs" >&2
        tail -n 5 "$folder/rustc" >&2
    fi
fi

failed=0
for name in idle busy pairs long cold again; do
    "make_$name" >"$folder/$name.xp"
    turns="$(written_turns "$name")"
    echo "$name: $turns written turns"
    read -r seconds memory status < <(measure "$folder/$name.xp" "$folder/$name.report" "$program" replay)
    if [ "${status:-1}" != 0 ]; then
        echo "  the program failed"
        failed=1
        continue
    fi
    line xpsim "$seconds" "$memory" "$turns"
    [ -n "$baseline" ] || continue
    case "$name" in pairs | long | cold | again) continue ;; esac
    read -r plain_seconds plain_memory status < <(measure "$folder/$name.xp" "$folder/$name.plain" "$baseline" replay)
    [ "${status:-1}" = 0 ] || continue
    line baseline "$plain_seconds" "$plain_memory" "$turns"
    awk -v a="$seconds" -v b="$plain_seconds" 'BEGIN { if (b > 0) printf "  ratio %.1f\n", a / b }'
    if ! cmp -s "$folder/$name.report" "$folder/$name.plain"; then
        echo "  the two reports differ"
        failed=1
    fi
done

exit $failed
