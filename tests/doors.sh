#!/bin/bash
# The doors as people use them: ./run, ./floor, ./convert, ./pack, ./unpack, ./rescue, ./explain, ./install, and the examples of
# docs/C.md, compiled as C and as C++, of docs/JUDGE.md and of docs/DAYFILE.md, against what ./install put, linked with the static and
# the shared library, and run. Ends with a line 'N passed, M failed'.
set -u
cd "$(dirname "$0")/.." || exit 2
work=$(mktemp -d) || exit 2
trap 'rm -rf "$work"' EXIT
export PYTHONDONTWRITEBYTECODE=1

passed=0 failed=0
check() { # NAME STATUS: passed where it is 0
    if [ "$2" -eq 0 ]; then passed=$((passed + 1)); else failed=$((failed + 1)); echo "doors: $1"; fi
}
ends() { # NAME WANTED-STATUS COMMAND..: the exit status; what it writes stands in $work/out and $work/err
    local name=$1 wanted=$2 status
    shift 2
    "$@" > "$work/out" 2> "$work/err"
    status=$?
    [ "$status" -eq "$wanted" ]
    check "$name: exit status $status and not $wanted" $?
}
says() { # NAME WORDS FILE
    grep -qF -- "$2" "$3"
    check "$1: it does not say '$2'" $?
}
same() { # NAME EXPECTED ACTUAL
    cmp -s "$2" "$3"
    check "$1 differs" $?
}

# ./run
ends "run SCRIPT" 0 ./run examples/quiet-day.txt
same "run SCRIPT" examples/quiet-day.out "$work/out"
ends "run < SCRIPT" 0 ./run < examples/late-cancel.txt
same "run < SCRIPT" examples/late-cancel.out "$work/out"
ends "run from another folder" 0 bash -c "cd '$work' && '$PWD/run' '$PWD/examples/odd-lot.txt'"
same "run from another folder" examples/odd-lot.out "$work/out"
ends "run --help" 0 ./run --help
says "run --help" "O side kind account quantity price balance" "$work/out"
ends "run, no such file" 2 ./run no-such-day.txt
says "run, no such file" "no such file" "$work/err"
ends "run, no such option" 2 ./run --fast
ends "run, two scripts" 2 ./run examples/quiet-day.txt examples/late-cancel.txt
ends "run on a folder" 1 ./run examples
says "run on a folder" "standard input cannot be read" "$work/err"
ends "run, output full" 1 bash -c './run examples/quiet-day.txt > /dev/full'
says "run, output full" "standard output cannot be written" "$work/err"

# ./floor, whose replies to the lines of ./run are those of ./run
ends "floor SCRIPT" 0 ./floor examples/quiet-day.txt
same "floor SCRIPT" examples/quiet-day.out "$work/out"
ends "floor < SCRIPT" 0 ./floor < examples/two-halts.txt
same "floor < SCRIPT" examples/two-halts.out "$work/out"
ends "floor from another folder" 0 bash -c "cd '$work' && printf 'R\nD 1000 1\nR\nL 1 5\nJ 0\nS\n' | '$PWD/floor'"
printf 'X 17\nD\nR 0 0 0\nN 0 0\nJ 1\nS 0 0 0 0 0 0 0 0\n' > "$work/expected"
same "floor from another folder" "$work/expected" "$work/out"
ends "floor --help" 0 ./floor --help
for line in "L price count" "Q shares buyer seller" "J price" "the screen"; do
    says "floor --help" "$line" "$work/out"
done
ends "floor, no such file" 2 ./floor no-such-day.txt
ends "floor, no such option" 2 ./floor --fast
ends "floor, two scripts" 2 ./floor examples/quiet-day.txt examples/late-cancel.txt
ends "floor on a folder" 1 ./floor examples
says "floor on a folder" "standard input cannot be read" "$work/err"
ends "floor, output full" 1 bash -c './floor examples/quiet-day.txt > /dev/full'
says "floor, output full" "standard output cannot be written" "$work/err"

# ./convert
printf 'O 0 0 7 100 1000\n' > "$work/old"
printf 'O 0 0 7 100 1000 0\n' > "$work/new"
ends "convert SCRIPT" 0 ./convert "$work/old"
same "convert SCRIPT" "$work/new" "$work/out"
ends "convert --help" 0 ./convert --help

# ./pack, ./unpack and ./rescue
ends "pack SCRIPT" 0 ./pack examples/late-cancel.txt
same "pack SCRIPT" examples/late-cancel.fmx "$work/out"
ends "unpack and run" 0 bash -c './unpack examples/late-cancel.fmx | ./run'
same "unpack and run" examples/late-cancel.out "$work/out"
printf 'bad\nT 1\nO 256 0 1 1 1 1\n' > "$work/script"
ends "pack, lines left out" 0 ./pack "$work/script"
says "pack, lines left out" "X 27 3" "$work/err"
says "pack, lines left out" "K 1" "$work/err"
ends "rescue FILE" 0 ./rescue examples/late-cancel.fmx
same "rescue FILE" examples/late-cancel.fmx "$work/out"
head -c 511 examples/late-cancel.fmx > "$work/cut"
ends "unpack, damaged" 1 ./unpack "$work/cut"
says "unpack, damaged" "X 26 1" "$work/err"
ends "rescue, damaged" 0 ./rescue "$work/cut"
says "rescue, damaged" "B 1 0 0" "$work/err"
for door in pack unpack rescue; do
    ends "$door --help" 0 "./$door" --help
    ends "$door on a folder" 1 "./$door" examples
done
if script --version > /dev/null 2>&1; then # a terminal of its own
    script -qec './run' /dev/null < /dev/null > "$work/out" 2>&1
    says "run on a terminal" "waiting for lines" "$work/out"
fi

# ./explain: every refusal that a line can meet. 10, 11 and 13 need a full book, a million orders and 4,096 claims; their replies are
# stored. A session whose name begins with floor is one of ./floor, and one that begins with screen is shown with it.
for session in tests/explain/*.txt; do
    options=()
    case "$session" in */floor*) options+=(--floor) ;; */screen*) options+=(--screen) ;; esac
    if [ -e "${session%.txt}.replies" ]; then options+=(--replies "${session%.txt}.replies"); fi
    ends "explain $session" 0 ./explain "${options[@]}" "$session"
    same "explain $session" "${session%.txt}.out" "$work/out"
done
for refusal in {1..14} 16 17; do
    cat tests/explain/*.out > "$work/all"
    says "explain, refusal $refusal" "→ X $refusal: " "$work/all"
done
ends "explain --help" 0 ./explain --help
ends "explain, no such file" 2 ./explain no-such-day.txt
ends "explain, no such option" 2 ./explain --fast examples/quiet-day.txt
ends "explain, two scripts" 2 ./explain examples/quiet-day.txt examples/late-cancel.txt

# ./explain --picture: stored pictures, and what is drawn compared with the program's own answers
pictured() { # PICTURE SCRIPT LINES OPTION..: of the book after so many lines
    local picture=$1 script=$2 lines=$3
    shift 3
    ends "a picture of $script" 0 ./explain --picture "$work/auction.svg" "$@" "$script"
    if [ -n "$picture" ]; then same "the picture of $script" "$picture" "$work/auction.svg"; fi
    ends "what the picture of $script shows" 0 tests/picture.py "$work/auction.svg" "$script" "$lines"
}
pictured docs/auction.svg examples/opening-auction-floor.txt 25
pictured docs/worked-book.svg examples/opening-auction.txt 7
pictured '' examples/quiet-day.txt 15
pictured '' examples/two-halts.txt 6
pictured '' examples/two-halts.txt 16 --after 16
pictured '' examples/claim-right.txt 14
ends "a picture of nothing" 1 ./explain --picture "$work/auction.svg" --after 2 examples/quiet-day.txt
says "a picture of nothing" "nothing to draw" "$work/err"
ends "a picture that cannot be written" 2 ./explain --picture "$work/no/auction.svg" examples/quiet-day.txt
ends "a line without a picture" 2 ./explain --after 2 examples/quiet-day.txt
ends "a picture and a screen at once" 2 ./explain --screen --picture "$work/auction.svg" examples/quiet-day.txt

# ./install, and the example of docs/C.md
ends "install without a folder" 2 ./install
ends "install" 0 ./install "$work/prefix"
awk '/^```/ { inside = ($0 == "```c"); next } inside' docs/C.md > "$work/example.c"
awk '/^```/ { inside = ($0 == "```text"); next } inside' docs/C.md > "$work/expected"
cp "$work/example.c" "$work/example.cpp"
flags=(-O2 -Wall -Wextra -Werror -I"$work/prefix/include")
static=$work/prefix/lib/libflemorix.a
shared=(-L"$work/prefix/lib" -lflemorix -Wl,-rpath,"$work/prefix/lib")
compiles() { # NAME COMPILER.. : then the program prints what the page says
    local name=$1
    shift
    ends "the example $name" 0 "$@" -o "$work/example"
    ends "the example $name, run" 0 tests/x86 "$work/example"
    same "the example $name" "$work/expected" "$work/out"
}
compiles "in C" "$(doors/library --compiler)" -std=c11 "${flags[@]}" "$work/example.c" "$static"
compiles "in C++" "$(doors/library --compiler++)" -std=c++11 "${flags[@]}" "$work/example.cpp" "$static"
compiles "in C, shared" "$(doors/library --compiler)" -std=c11 "${flags[@]}" "$work/example.c" "${shared[@]}"
awk '/^```/ { inside = ($0 == "```c"); next } inside' docs/JUDGE.md > "$work/judge.c"
awk '/^```/ { inside = ($0 == "```text"); next } inside' docs/JUDGE.md > "$work/expected"
compiles "of the judge" "$(doors/library --compiler)" -std=c11 "${flags[@]}" "$work/judge.c" "$static"
awk '/^```/ { inside = ($0 == "```c"); next } inside' docs/DAYFILE.md > "$work/file.c"
awk '/^```/ { inside = ($0 == "```text"); next } inside' docs/DAYFILE.md > "$work/expected"
cp "$work/file.c" "$work/file.cpp"
compiles "of the day file" "$(doors/library --compiler)" -std=c11 "${flags[@]}" "$work/file.c" "$static"
compiles "of the day file in C++" "$(doors/library --compiler++)" -std=c++11 "${flags[@]}" "$work/file.cpp" "$static"
says "pkg-config" "-lflemorix" "$work/prefix/lib/pkgconfig/flemorix.pc"
[ -e "$work/prefix/lib/libflemorix.so.4" ]
check "the shared library has not the number of its layout, 3" $?

echo "$passed passed, $failed failed"
[ "$failed" -eq 0 ]
