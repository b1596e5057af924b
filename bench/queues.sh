#!/usr/bin/env bash
# bench/queues.sh [PROGRAM]: sends messages through a queue of each size, and compares the program's report with the one
# that is wanted; without a word the program is crates/xpsim/out/xpsim. It needs python3.
#   sizes    each number of entries with each limit that they may have, 2,440 in all: three times as many messages as
#            entries, so that the queue wraps twice, each of the greatest length
#   lengths  each limit with payloads of 0, 1, 112, 113, 1,007, 1,008 and 1,009 bytes: those above it are too big
set -u

here="$(dirname "$(readlink -f "${BASH_SOURCE[0]}")")"
program="${1:-$(dirname "$here")/crates/xpsim/out/xpsim}"
if [ ! -x "$program" ]; then
    echo "bench/queues.sh: $program isn't built" >&2
    exit 1
fi
program="$(readlink -f "$program")"

exec python3 - "$program" <<'PYTHON'
import subprocess, sys

program = sys.argv[1]
GREATEST = 1008

def lines(limit):
    """How many lines an entry has: those that hold two words and the payload."""
    return (limit + 16 + 127) // 128

def spelled(byte, length):
    return f"{length}*{byte:02x}" if length > 0 else "-"

def printed(byte, length):
    digits = f"{byte:02x}"
    return f"{length}:" + (digits * 8 + ".." + digits * 8 if length > 32 else digits * length)

def link(partner, accepted, taken):
    return (f"  link {partner} 0 epoch 0 own 1.1 partner 1.1 accepted {accepted} taken {taken} acked {taken} "
            "delivered 0 ended 0\n")

def texts(entries, limit, lengths):
    """A scenario in which messages of these lengths are sent, taken and released, and its report."""
    own, theirs, sent, taken = "", "", "", ""
    number = 0
    for place, length in enumerate(lengths):
        byte = (37 * place + 11) % 256
        own += f"send 1 0 {spelled(byte, length)}\n"
        if length > limit:
            sent += f"  1 {place + 1} send too-big {length} {limit}\n"
            continue
        sent += f"  1 {place + 1} send ok {number}\n"
        theirs += f"take 0 0\nrelease 0 0 {number}\n"
        taken += f"  1 {2 * number + 1} take ok {number} {printed(byte, length)}\n"
        number += 1
        taken += f"  1 {2 * number} release ok {number}\n"
    scenario = (f"xpsim 1\npartitions 2\nminor 0 2\nminor 1 2\nwarm 0 1 0 entries {entries} limit {limit}\n"
                f"script 0\n{own}script 1\n{theirs}schedule\nrounds 20000\n")
    report = (f"report 1\npartition 0 done boots 1\n{sent}{link(1, number, 0)}"
              f"partition 1 done boots 1\n{taken}{link(0, 0, number)}")
    return scenario, report

def tried(what, cases):
    count = wrong = 0
    for entries, limit, lengths in cases:
        scenario, report = texts(entries, limit, lengths)
        run = subprocess.run([program, "replay"], input=scenario.encode(), capture_output=True)
        count += 1
        if run.returncode != 0 or run.stdout.decode() != report:
            wrong += 1
            if wrong <= 3:
                print(f"  {what}: {entries} entries of limit {limit}: another report, status {run.returncode}")
    print(f"{what}: {count} tried, {wrong} wrong")
    return wrong

limits = range(GREATEST + 1)
sizes = [(entries, limit, [limit] * (3 * entries)) for entries in range(1, 9) for limit in limits
         if entries * lines(limit) <= 8]
lengths = [(8 // lines(limit), limit, [0, 1, 112, 113, 1007, 1008, 1009]) for limit in limits]
sys.exit(tried("sizes", sizes) + tried("lengths", lengths) > 0)
PYTHON
