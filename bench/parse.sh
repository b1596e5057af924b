#!/usr/bin/env bash
# bench/parse.sh [PROGRAM]: how long the program takes to read a text of 1 MiB, the most that it reads, and how much memory.
# Each text ends with a line that is wrong, or has too much of something, so that it is read and not replayed. Without a word
# the program is crates/xpsim/out/xpsim. It makes its texts itself:
#   runs      sends of 4,096 bytes by a run, far past the limit of bytes
#   digits    sends of 4,096 bytes in digits
#   takes     short commands
#   pairs     a warm line of every pair and channel of 64 partitions, and then pokes
#   comments  comments
#   blanks    lines without words
# Times are processor seconds, of the program and of the system for it. Other load makes them longer.
set -u

here="$(dirname "$(readlink -f "${BASH_SOURCE[0]}")")"
program="${1:-$(dirname "$here")/crates/xpsim/out/xpsim}"
if [ ! -x "$program" ]; then
    echo "bench/parse.sh: $program isn't built" >&2
    exit 1
fi
program="$(readlink -f "$program")"
folder="$(mktemp -d)" || exit 1
trap 'rm -rf "$folder"' EXIT
. "$here/measure.sh"

limit=1048576

opening() { printf '%s\n' 'xpsim 1' 'partitions 2' 'script 0'; }

# repeat LINE: the line, over and over
repeat() { yes "$1"; }

make_runs() { opening; repeat 'send 1 0 4096*61'; }
make_digits() { opening; repeat "send 1 0 $(printf '61%.0s' $(seq 4096))"; }
make_takes() { opening; repeat 'take 1 0'; }
make_pairs() {
    printf '%s\n' 'xpsim 1' 'partitions 64'
    awk 'BEGIN {
        for (p = 0; p < 64; p++) for (q = p + 1; q < 64; q++) for (c = 0; c < 4; c++)
            print "warm " p " " q " " c " entries 4 limit 112"
        for (;;) print "poke 0 0 0 0"
    }'
}
make_comments() { opening; repeat "# $(printf 'words of a comment %.0s' $(seq 50))"; }
make_blanks() { repeat ''; }

for name in runs digits takes pairs comments blanks; do
    # the text up to its last whole line within the limit, and behind it a line that is wrong
    "make_$name" 2>/dev/null | head -c $((limit - 2)) | sed '$d' >"$folder/text"
    echo x >>"$folder/text"
    read -r seconds memory _ < <(measure "$folder/text" "$folder/report" "$program" replay 2>"$folder/line")
    awk -v name="$name" -v bytes="$(wc -c <"$folder/text")" -v s="$seconds" -v m="$memory" -v line="$(tail -n 1 "$folder/line")" 'BEGIN {
        printf "%-9s %7d bytes  %5.0f ms  %4.0f MiB at most  %s\n", name, bytes, 1000 * s, m / 1024, line
    }'
done
