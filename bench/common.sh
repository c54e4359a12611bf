# What the benchmarks of commands share: the program, the folders, generated mail, and how a command is measured. Wants gcc and
# python3.
#
# SIZE     megabytes of mail (1000)
# WORK     a folder for the mail (build/bench)
# MAILDIR  a fresh folder for Maildirs, best in memory (below /dev/shm where that is there, otherwise below WORK)
set -euo pipefail
cd "$(dirname "$0")/.."

size=${SIZE:-1000}
work=${WORK:-build/bench}
if [ -w /dev/shm ]; then memory=/dev/shm; else memory=$work; fi
maildir=${MAILDIR:-$memory/mbox2maildir-bench-$$}
program=$PWD/build/mbox2maildir
mail=$work/mail-$size.mbox

mkdir -p "$work"
trap 'rm -rf "$maildir"' EXIT
gcc -O2 -Wall -o "$work/usage" bench/usage.c

# Writes the mail, unless it is there.
make_mail() {
    [ -f "$mail" ] || { bench/mail.py "$size" >"$mail.part" && mv "$mail.part" "$mail"; }
}

# run_once COMMAND..: runs it, and reads its $seconds, those of $work_done and its peak of memory in $kib.
run_once() {
    "$work/usage" "$work/used" "$@"
    read -r seconds work_done kib <"$work/used"
}

# calculate EXPRESSION [PLACES]: its value, with two places, or with so many.
calculate() {
    awk "BEGIN { printf \"%.${2:-2}f\", $1 }"
}

heads() {
    printf '%-40s %8s %8s %8s\n' '' seconds 'of work' 'peak MiB'
}

# measure_alone NAME COMMAND..: runs the command once, which must end with status 0, and prints what was measured.
measure_alone() {
    local name=$1
    shift
    run_once "$@" >"$work/said"
    row "$name"
}

# small COUNT: an mbox text of so many messages.
small() {
    awk -v count="$1" 'BEGIN { for (n = 1; n <= count; n++)
        printf "From a@b.example Mon Mar  3 %02d:%02d:%02d 2025 +0000\nSubject: %d\n\n%d\n\n", n / 3600 % 24, n / 60 % 60, n % 60, n, n }'
}

# row NAME: prints what was measured.
row() {
    printf '%-40s %8.2f %8.2f %8.1f\n' "$1" "$seconds" "$work_done" "$(awk "BEGIN { print $kib / 1024 }")"
}
