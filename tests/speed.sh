#!/bin/bash
# The speed of the rehearsal program, and what its events cost in instructions: tests/speed.sh, about a minute.
# Needs python3, and valgrind for the second half. Not part of the gate; docs/SPEED.md has the numbers.
set -u
cd "$(dirname "$0")/.." || exit 2
[ "$(uname -m)" = x86_64 ] || { echo "speed: needs x86-64: a time under the kit's emulator says nothing" >&2; exit 1; }
program=target/bin/rehearse
folder=target/busy-day
lines=100000
export PYTHONDONTWRITEBYTECODE=1

doors/build rehearse >&2 || exit 1
mkdir -p "$folder" || exit 2

# 1. A busy day, three times; the replies have to be the desk's.
if [ ! -f "$folder/day.out" ] || [ tests/day_of.py -nt "$folder/day.out" ] || [ tests/desk.py -nt "$folder/day.out" ]; then
    tests/day_of.py "$lines" "$folder/day.txt" "$folder/day.out" || exit 1
fi
best=''
for _ in 1 2 3; do
    start=$(date +%s%N)
    "$program" < "$folder/day.txt" > "$folder/day.got" || exit 1
    took=$((($(date +%s%N) - start) / 1000))
    if [ -z "$best" ] || [ "$took" -lt "$best" ]; then best=$took; fi
done
cmp "$folder/day.out" "$folder/day.got" || exit 1
awk -v n="$lines" -v t="$best" 'BEGIN {
    printf "a day of %d lines: %.2f s (best of three), %d lines a second, %.1f microseconds a line\n", n, t / 1e6, n * 1e6 / t, t / n
}'

# 2. Instructions, counted by valgrind.
if ! valgrind --version > /dev/null 2>&1; then
    echo "speed: valgrind is missing; instructions were not counted"
    exit 0
fi

instructions() { # of the program on standard input
    valgrind --tool=callgrind --callgrind-out-file=/dev/null "$program" 2>&1 > /dev/null | awk '/Collected :/ { print $NF }'
}

standing() { # 200 buys and 200 sells in continuous trading, in turn
    echo 'D 2000 1'
    echo 'T 34200'
    for n in {1..200}; do
        echo "O 0 0 7 300 $((1990 - n % 40)) 0"
        echo "O 1 0 8 300 $((2010 + n % 40)) 0"
    done
}

repeated() { # COUNT TEXT: the standing book, then the text so many times
    standing
    for ((turn = 0; turn < $1; turn++)); do printf "$2"; done
}

before=$(standing | instructions)
times=300
one() { # TEXT: the instructions of one turn of it, on the standing book
    echo $((($(repeated "$times" "$1" | instructions) - before) / times))
}

say() { # WHAT INSTRUCTIONS
    printf '%-58s %9d instructions\n' "$1" "$2"
}

# An order outside the band is refused before the book is looked at, one outside its range after the other side's best price is
# found: in a book in order that is no pass any more.
say 'a line that is 16' "$(one 'x\n')"
say 'an order that is 8, before the book is looked at' "$(one 'O 0 0 9 100 2601 0\n')"
say 'an order that is 9, after the best price is found' "$(one 'O 0 0 9 100 2500 0\n')"
say 'a move of the clock that passes nothing' "$(one 'T 34200\n')"
say 'a cancel that is 12' "$(one 'C 9 1\n')"
for kind in 0 1 2 3 4; do
    say "an order of kind $kind that trades nothing" "$(one "O 0 $kind 9 100 2000 0\n")"
done
say 'two orders, one that waits and one that trades with it' "$(one 'O 1 0 9 100 2000 0\nO 0 0 9 100 2000 0\n')"
waiting=$(standing | sed 's/34200/33300/')
quiet=$(echo "$waiting" | instructions)
opened=$({ echo "$waiting"; echo 'T 33900'; } | instructions)
say 'a move past the opening auction that trades nothing' $((opened - quiet))
few=$(head -n 2000 "$folder/day.txt" | instructions)
more=$(head -n 5000 "$folder/day.txt" | instructions)
say "a line of the busy day, lines 2,001 to 5,000 on average" $(((more - few) / 3000))
