#!/usr/bin/env bash
# bench/dumps.sh [PROGRAM [COUNT]]: how fast PROGRAM lists dumps, and whether it answers as a plain program does; without
# a word the built program crates/xpsim/out/xpsim. The plain program is bench/dumps.rs, which rustc has to build.
#   listing    dumps of 8 partitions, in both layouts, and of 64, with as many words set as the grammar lets: processor
#              seconds, of the program and of the system for it, the least of nine runs, and the most memory held, which
#              isn't told below the 9 MiB or so of python3 itself
#   answers    COUNT dumps, 20,000 of them without a word, that are changed at random: status, listing and fault
set -u

here="$(dirname "$(readlink -f "${BASH_SOURCE[0]}")")"
program="${1:-$(dirname "$here")/crates/xpsim/out/xpsim}"
count="${2:-20000}"
if [ ! -x "$program" ]; then
    echo "bench/dumps.sh: $program isn't built" >&2
    exit 1
fi
program="$(readlink -f "$program")"
folder="$(mktemp -d)" || exit 1
trap 'rm -rf "$folder"' EXIT

if ! rustc -O --edition 2021 -o "$folder/dumps" "$here/dumps.rs" 2>"$folder/rustc"; then
    echo "bench/dumps.sh: rustc didn't build bench/dumps.rs" >&2
    tail -n 5 "$folder/rustc" >&2
    exit 1
fi

# measure INPUT OUTPUT PROGRAM: its least processor seconds in nine runs, and the most memory that it held, in KiB.
measure() {
    python3 -c '
import os, sys
given, written, program = sys.argv[1:]
least, most = None, 0
for _ in range(9):
    child = os.fork()
    if child == 0:
        os.dup2(os.open(given, os.O_RDONLY), 0)
        os.dup2(os.open(written, os.O_WRONLY | os.O_CREAT | os.O_TRUNC, 0o600), 1)
        os.execv(program, [program, "decode"])
    _, status, used = os.wait4(child, 0)
    if status != 0:
        sys.exit(1)
    seconds = used.ru_utime + used.ru_stime
    least = seconds if least is None else min(least, seconds)
    most = max(most, used.ru_maxrss)
print(f"{least:.3f} {most}")' "$@"
}

failed=0
for kind in "1 8" "2 8" "2 64"; do
    # shellcheck disable=SC2086
    "$folder/dumps" make $kind >"$folder/dump"
    read -r seconds memory < <(measure "$folder/dump" "$folder/listing" "$program") || { failed=1; continue; }
    read -r plain_seconds plain_memory < <(measure "$folder/dump" "$folder/plain" "$folder/dumps") || { failed=1; continue; }
    bytes="$(stat -c %s "$folder/dump")"
    lines="$(wc -l <"$folder/listing")"
    echo "layout ${kind% *}, ${kind#* } partitions: $bytes bytes, $lines lines"
    echo "  xpsim     $seconds s  $((memory / 1024)) MiB at most"
    echo "  dumps.rs  $plain_seconds s  $((plain_memory / 1024)) MiB at most"
    awk -v a="$seconds" -v b="$plain_seconds" 'BEGIN { if (b > 0) printf "  ratio %.1f\n", a / b }'
    if ! cmp -s "$folder/listing" "$folder/plain"; then
        echo "  the two listings differ"
        failed=1
    fi
done
"$folder/dumps" compare "$program" "$count" || failed=1
exit $failed
