# Measuring a program; a script that has made its folder `$folder` reads this file.

# measure INPUT OUTPUT PROGRAM WORD..: its processor seconds, the most memory that it held, in KiB, and its status; "?" where the
# memory can't be told. Without GNU time python3 measures, which never tells less than its own 10 to 20 MiB.
measure() {
    local input="$1" output="$2" status
    shift 2
    if /usr/bin/time -f '%U %S %M' true >/dev/null 2>&1; then
        /usr/bin/time -f '%U %S %M' -o "$folder/measured" "$@" <"$input" >"$output"
        status=$?
        tail -n 1 "$folder/measured" | awk -v status="$status" '{ print $1 + $2, $3, status }'
    elif command -v python3 >/dev/null 2>&1; then
        python3 -c '
import resource, subprocess, sys
given, written, *command = sys.argv[1:]
with open(given) as source, open(written, "w") as sink:
    status = subprocess.run(command, stdin=source, stdout=sink).returncode
used = resource.getrusage(resource.RUSAGE_CHILDREN)
print(round(used.ru_utime + used.ru_stime, 3), used.ru_maxrss, status)' "$input" "$output" "$@"
    else
        local TIMEFORMAT='%U %S'
        { time "$@" <"$input" >"$output"; } 2>"$folder/measured"
        status=$?
        tail -n 1 "$folder/measured" | awk -v status="$status" '{ print $1 + $2, "?", status }'
    fi
}
