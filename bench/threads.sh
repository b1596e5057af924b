#!/usr/bin/env bash
# bench/threads.sh [PROGRAM] [RUNS]: what it costs and gains to run partitions as threads, and whether their reports hold
# together; without words the built program crates/xpsim/out/xpsim, and 200 runs. It makes its scenarios itself:
#   alone  partition 0 waits in a take that no message comes for, in 4,000,000 turns; partition 1 has ended. By `replay`
#          its steps are made on plain words, by `run` on shared ones
#   two, four  so many partitions wait so, in 4,000,000 turns each
#   traffic  two pairs of partitions send each other 500 messages, take and release them
# Of each run of `traffic` the report is checked: the messages taken are, in order, those that the partner sent and was
# told were accepted, what is acknowledged was taken, and the released fronts rise.
# Times are real seconds, and processor seconds of the program and of the system for it. Other load makes them longer.
set -u

here="$(dirname "$(readlink -f "${BASH_SOURCE[0]}")")"
program="${1:-$(dirname "$here")/crates/xpsim/out/xpsim}"
runs="${2:-200}"
if [ ! -x "$program" ]; then
    echo "bench/threads.sh: $program isn't built" >&2
    exit 1
fi
program="$(readlink -f "$program")"
folder="$(mktemp -d)" || exit 1
trap 'rm -rf "$folder"' EXIT

. "$here/measure.sh"

make_alone() {
    printf '%s\n' 'xpsim 1' 'partitions 2' 'budget 4000000' 'warm 0 1 0 entries 4 limit 112' 'script 0' 'take 1 0' \
        'schedule' 'rounds 4000000'
}

make_waiting() { # partitions
    awk -v n="$1" 'BEGIN {
        print "xpsim 1\npartitions " n "\nbudget 4000000"
        for (p = 0; p < n; p += 2) print "warm " p " " p + 1 " 0 entries 4 limit 112"
        for (p = 0; p < n; p++) print "script " p "\ntake " (p % 2 == 0 ? p + 1 : p - 1) " 0"
        print "schedule\nrounds 4000000"
    }'
}

messages=500

make_traffic() {
    awk -v m="$messages" 'BEGIN {
        print "xpsim 1\npartitions 4\nbudget 4000000\nwarm 0 1 0 entries 4 limit 112\nwarm 2 3 0 entries 2 limit 112"
        for (p = 0; p < 4; p++) {
            q = p % 2 == 0 ? p + 1 : p - 1
            print "script " p
            for (k = 0; k < m; k++) printf "send %d 0 %02x%04x\ntake %d 0\nrelease %d 0 %d\n", q, p, k, q, q, k
        }
    }'
}

# Tells what is wrong with a report of `traffic`, and fails where something is.
check_traffic() { # report
    awk -v m="$messages" '
        function wrong(what) { if (!bad) print "  line " NR ": " what; bad = 1 }
        $1 == "partition" { p = $2; q = p % 2 == 0 ? p + 1 : p - 1; sent = taken = front = 0; parts++ }
        $3 == "send" && $4 == "ok" { if ($5 != sent) wrong("a send was told another number"); sent++ }
        $3 == "take" && $4 == "ok" {
            if ($5 != taken) wrong("a take was told another number")
            if ($6 != sprintf("3:%02x%04x", q, taken)) wrong("a message is another one than was sent")
            taken++
        }
        $3 == "release" && $4 == "ok" { if ($5 < front || $5 > taken) wrong("a released front fell, or is past what was taken"); front = $5 }
        $1 == "link" {
            for (i = 1; i < NF; i++) of[$i] = $(i + 1)
            if (of["accepted"] != sent || of["taken"] != taken) wrong("the counts are other ones")
            if (of["acked"] > of["taken"]) wrong("more is acknowledged than was taken")
            accepted[p] = of["accepted"]; got[p] = of["taken"]
        }
        END {
            if (parts != 4) { print "  there are other partitions"; bad = 1 }
            for (p in got) { q = p % 2 == 0 ? p + 1 : p - 1; if (got[p] > accepted[q]) { print "  " p " took more than was accepted"; bad = 1 } }
            exit bad
        }' "$1"
}

real_seconds() { # input output words..
    local input="$1" output="$2"
    shift 2
    local TIMEFORMAT='%R'
    { time "$@" <"$input" >"$output"; } 2>&1
}

failed=0
echo "$(nproc) processors"
for name in alone two four; do
    case $name in
    alone) make_alone >"$folder/$name.xp"; turns=4000000 ;;
    two) make_waiting 2 >"$folder/$name.xp"; turns=8000000 ;;
    four) make_waiting 4 >"$folder/$name.xp"; turns=16000000 ;;
    esac
    echo "$name: $turns turns"
    for command in replay run; do
        read -r seconds memory status < <(measure "$folder/$name.xp" "$folder/$name.$command" "$program" "$command")
        if [ "${status:-1}" != 0 ]; then
            echo "  $command failed"
            failed=1
            continue
        fi
        real="$(real_seconds "$folder/$name.xp" "$folder/$name.$command" "$program" "$command")"
        awk -v who="$command" -v s="$seconds" -v r="$real" -v k="$memory" -v t="$turns" 'BEGIN {
            memory = k == "?" ? "?" : sprintf("%.0f", k / 1024)
            printf "  %-7s %6.2f s processor, %5.1f ns a turn; %6.2f s real; %5s MiB at most\n", who, s, s * 1e9 / t, r, memory
        }'
    done
    if ! cmp -s "$folder/$name.replay" "$folder/$name.run"; then
        echo "  the two reports differ"
        failed=1
    fi
done

make_traffic >"$folder/traffic.xp"
wrong=0
different=0
for ((n = 1; n <= runs; n++)); do
    if ! "$program" run <"$folder/traffic.xp" >"$folder/traffic.report"; then
        wrong=$((wrong + 1))
    elif ! check_traffic "$folder/traffic.report"; then
        wrong=$((wrong + 1))
    fi
    [ "$n" = 1 ] && cp "$folder/traffic.report" "$folder/traffic.first"
    cmp -s "$folder/traffic.report" "$folder/traffic.first" || different=$((different + 1))
done
echo "traffic: $runs runs, $wrong of them wrong, $different with another report than the first"
[ "$wrong" = 0 ] || failed=1

exit $failed
