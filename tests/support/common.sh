# What the tests in shell share: each reads this file first, and ends with the names of its cases. It takes names of cases, and
# without any runs them all; `--list` prints them. The program that is tested is build/mbox2maildir, or MBOX2MAILDIR.
set -eu
this=${0##*/}
top=$(cd "$(dirname "$0")/../.." && pwd)
support=$top/tests/support
program=${MBOX2MAILDIR:-$top/build/mbox2maildir}
asked=$*
work=$(mktemp -d)
# what the cases share, each of which has a folder of its own as $work
shared=$work
# how long what must come is waited for, in seconds: on a machine that has much to do it comes late
patience=${PATIENCE:-600}

# What a test ends besides, at its own end: it may say so anew.
clean_up() { :; }
trap 'clean_up || true; rm -rf "$work"' EXIT
trap 'exit 1' INT TERM

# The SHA-256 of the body `abc`, and of the empty one.
abc=ba7816bf8f01cfea414140de5dae2223b00361a396177a9cb410ff61f20015ad
empty=e3b0c44298fc1c149afbf4c8996fb92427ae41e4649b934ca495991b7852b855

# tell TEXT: prints what was seen.
tell() {
    echo "$this: $*"
}

# fail TEXT: ends the test, with what is wrong.
fail() {
    tell "$*" >&2
    exit 1
}

# same WHAT WANTED GOT: two files hold the same bytes.
same() {
    cmp -s "$2" "$3" || fail "$1 is not what was wanted (-), but (+): $(cmp "$2" "$3" 2>&1)
$(diff -u "$2" "$3" | sed 1,2d | head -n 40)"
}

# holds WHAT FILE TEXT: a file holds this text, in which \n and \t stand for the bytes.
holds() {
    printf %b "$3" >"$work/.wanted"
    same "$1" "$work/.wanted" "$2"
}

# is WHAT GOT WANTED: two values are equal.
is() {
    test "$2" = "$3" || fail "$1: got '$2', wanted '$3'"
}

# report MESSAGES THERE PLACED SWEPT: what a conversion prints.
report() {
    echo "messages $1, there $2, placed $3, swept $4"
}

# leave_out REASON: ends a case that can't be tried here.
leave_out() {
    echo ": $*" >"$shared/reason"
    exit 77
}

# What stands before each case, in the case's folder.
set_up() { :; }

# run_case NAME: runs it in a shell and a folder of its own, and prints how it ended, which tests/run counts.
run_case() {
    begun=$(date +%s%N)
    : >"$shared/reason"
    set +e
    (
        set -e
        trap 'clean_up || true' EXIT
        work=$shared/$1
        mkdir "$work"
        cd "$work"
        set_up "$1"
        "$1"
    )
    case $? in
    0) ended=passed ;;
    77) ended=skipped ;;
    *) ended=failed failed=yes ;;
    esac
    set -e
    milliseconds=$((($(date +%s%N) - begun) / 1000000))
    printf '%s %s:%s %d.%02d s%s\n' "$ended" "$this" "$1" $((milliseconds / 1000)) $((milliseconds % 1000 / 10)) \
        "$(cat "$shared/reason")"
    rm -rf "${shared:?}/$1"
}

# cases NAME..: the last line of a test.
cases() {
    if test "$asked" = --list; then
        printf '%s\n' "$@"
        exit
    fi
    for each in $asked; do
        case " $* " in *" $each "*) ;; *) fail "no case $each" ;; esac
    done
    failed=
    for each in ${asked:-$*}; do
        run_case "$each"
    done
    test -z "$failed"
}

# exits COMMAND..: runs it, with its status in $status.
exits() {
    status=0
    "$@" || status=$?
}

# ended WHAT TEXT: the run with this $status and with the file err as its standard error ended with status 1 and this text, or
# well where the text is `well`.
ended() {
    if test "$2" = well; then
        is "$1: standard error" "$(cat err)" ''
        is "$1: status" "$status" 0
    else
        holds "$1: standard error" err "mbox2maildir: $2\n"
        is "$1: status" "$status" 1
    fi
}

# no_file WHAT PATH: nothing has this path, not even a link that leads nowhere.
no_file() {
    test ! -e "$2" && test ! -h "$2" || fail "$1: $2 is there: $(ls -ld "$2")"
}

# until_placed WHAT: waits until a conversion into the folder maildir has placed a message.
until_placed() {
    waits=0
    until test -n "$(find maildir/new -type f 2>/dev/null)"; do
        waits=$((waits + 1))
        test "$waits" -lt $((patience * 10)) || fail "$1: nothing is placed"
        sleep 0.1
    done
}

# preload SOURCE: makes of a C file beside this what LD_PRELOAD takes, $shared/SOURCE.so. The kit brings a C compiler, so
# that none need be installed.
preload() {
    test "$asked" != --list || return 0
    compiler=
    if command -v rt >/dev/null; then compiler=$(dirname "$(rt doc)")/toolchain/bin/clang; fi
    test -x "$compiler" || compiler=cc
    "$compiler" -O1 -fPIC -shared -nostdlib -o "$shared/$1.so" "$support/$1.c"
}

# of_libraries: leaves out a case of the libraries where the program is tested alone.
of_libraries() {
    test -z "${PROGRAM_ALONE:-}" || leave_out 'the program is tested alone'
}

# The tests of the libraries are built, as $tests: `rt ci` leaves them so.
build_tests() {
    tests=$top/crates/vectors/out/vectors_tests
    if test ! -x "$tests" || test -n "$(find "$top/crates" -name out -prune -o -name '*.rt' -newer "$tests" -print)"; then
        command -v rt >/dev/null || leave_out 'rt is not here'
        (cd "$top/crates/vectors" && rt test) >"$work/log" 2>&1 || fail "the tests of crates/vectors: $(cat "$work/log")"
    fi
}
