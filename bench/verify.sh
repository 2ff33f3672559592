#!/usr/bin/env bash
# Verifies databases with the program `metamath` and with this program. Prints the seconds and megabytes that each took, and
# the ratio of the seconds. Each line says whether the two agree that the database is valid, and on its numbers of `$a` and `$p`
# statements. The databases are the arguments. Without arguments, they are those of Debian's package metamath-databases. The
# programs run in turn, each RUNS times, or once if RUNS is not set. The seconds are those of the best run. Not part of the gate.
set -u
top=$(cd "$(dirname "$0")/.." && pwd)
kore_prove=$top/crates/kore_prove/out/kore_prove

for program in metamath /usr/bin/time; do
    if ! command -v "$program" > /dev/null; then
        echo "bench/verify.sh: skipped, since this machine has no $program"
        exit 0
    fi
done
if [ $# -eq 0 ]; then
    set -- /usr/share/metamath/databases/*.mm
fi
if [ ! -e "$1" ]; then
    echo "bench/verify.sh: skipped, since this machine has no $1"
    exit 0
fi
"$top/kore_prove" > /dev/null 2>&1    # proves and builds the program if needed

said=$(mktemp)
taken=$(mktemp)
trap 'rm -f "$said" "$taken"' EXIT

# Turns what `metamath` said into the line that this program has to print.
expected_line() {
    if grep -q '^All proofs in the database were verified' "$said" && ! grep -qE '^\?|\?Error' "$said"; then
        tr '\n' ' ' < "$said" | sed -nE 's/.* statements; ([0-9]+) are \$a and ([0-9]+) are \$p.*/valid \1 \2/p'
    else
        echo invalid
    fi
}

# The smaller of two numbers. The first may be missing.
lesser() {
    awk -v a="$1" -v b="$2" 'BEGIN { print (a == "" || b < a) ? b : a }'
}

printf '%-18s %10s %9s %9s %7s %9s %9s  %s\n' database bytes metamath verify ratio metamath verify answer
failed=0
for database in "$@"; do
    its_seconds=
    seconds=
    for ((run = 0; run < ${RUNS:-1}; run++)); do
        /usr/bin/time -o "$taken" -f '%e %M' metamath "read \"$database\"" "verify proof *" exit < /dev/null > "$said" 2>&1
        read -r took its_kilobytes < <(tail -n 1 "$taken")
        its_seconds=$(lesser "$its_seconds" "$took")
        expected=$(expected_line)
        answer=$(/usr/bin/time -o "$taken" -f '%e %M' "$kore_prove" verify "$database")
        read -r took kilobytes < <(tail -n 1 "$taken")
        seconds=$(lesser "$seconds" "$took")
    done
    case $answer in
        "$expected" | "$expected "*) agreed="$answer" ;;
        *) agreed="$answer, but metamath: $expected"; failed=1 ;;
    esac
    awk -v name="$(basename "$database")" -v bytes="$(wc -c < "$database")" -v a="$its_seconds" -v b="$seconds" \
        -v m="$its_kilobytes" -v n="$kilobytes" -v answer="$agreed" 'BEGIN {
            ratio = a > 0 ? sprintf("%.2f", b / a) : "-"
            printf "%-18s %10d %7.2f s %7.2f s %7s %6d MB %6d MB  %s\n", name, bytes, a, b, ratio, m / 1000, n / 1000, answer
        }'
done
exit $failed
