#!/bin/bash
# Whole sessions through the built program: each example whole and one byte at a time, the edges of a line, what the program
# does when its input or output fails, the stored sessions (pairs.py), made sessions (generated.py) and random bytes
# (random_bytes.py). The last three need python3, 3.9 or newer. Ends with a line 'N passed, M failed'.
set -u
cd "$(dirname "$0")/.." || exit 2
program=target/bin/rehearse
work=$(mktemp -d) || exit 2
trap 'rm -rf "$work"' EXIT

passed=0 failed=0
doors/build rehearse >&2 || { echo "0 passed, 1 failed"; exit 1; }

same() { # NAME EXPECTED ACTUAL: two files
    if cmp -s "$2" "$3"; then
        passed=$((passed + 1))
    else
        failed=$((failed + 1))
        echo "sessions: $1 differs"
        diff "$2" "$3" | head -n 5
    fi
}

rehearse() { tests/x86 "$program"; }

# A file in writes of one byte each, so that the program reads chunks that end anywhere.
drip() { # FILE
    dd if="$1" bs=1 status=none
}

session() { # NAME INPUT EXPECTED
    rehearse < "$2" > "$work/whole"
    same "$1" "$3" "$work/whole"
    drip "$2" | rehearse > "$work/dripped"
    same "$1, byte by byte" "$3" "$work/dripped"
}

edge() { # NAME INPUT EXPECTED: texts for printf
    printf "$2" > "$work/in"
    printf "$3" > "$work/out"
    session "$1" "$work/in" "$work/out"
}

for input in examples/*.txt; do
    if grep -q '^[RLSQJ]' "$input"; then continue; fi # asks questions of ./floor, which tests/floor.py runs
    session "$input" "$input" "${input%.txt}.out"
done

digits=$(printf '9%.0s' {1..77})
letters=$(printf 'T%.0s' {1..70000})
edge "no input" '' ''
edge "an empty line" '\nD 1000 1\n\n' 'X 16\nD\nX 16\n'
edge "a line of 80 bytes with its newline" "T $digits\nD 1000 1\n" 'X 16\nD\n'
edge "a line of 81 bytes with its newline" "T 9$digits\nD 1000 1\n" 'X 16\nD\n'
edge "a line of 70,000 bytes" "$letters\nD 1000 1\n" 'X 16\nD\n'
edge "an unended tail" 'D 1000 1\nT 33300' 'D\nX 16\n'
edge "an unended tail that is too long" "D 1000 1\nT 9$digits" 'D\nX 16\n'
edge "an unended tail of 70,000 bytes" "D 1000 1\n$letters" 'D\nX 16\n'
edge "16 precedes 17" 'T\nT 33300\nO 0 0 7 100 1000 0\nC 7 1\n' 'X 16\nX 17\nX 17\nX 17\n'
edge "a refused opening changes nothing" 'D 1000 1\nT 33300\nD 0 1\nD 1000 2\nT 33300\n' 'D\nK 1 0\nX 14\nX 14\nK 1 0\n'
edge "spaces, zeros, signs and letters" 'T  1\n T 1\nT 1 \nT 01\nT +1\nT 1x\nt 1\nT 4294967296\nT 0\n' \
    'X 16\nX 16\nX 16\nX 16\nX 16\nX 16\nX 16\nX 16\nX 17\n'
edge "too few and too many numbers" 'D 1000\nO 0 0 7 100\nO 0 0 7 100 1000 0 0\nC 7\nT\n' 'X 16\nX 16\nX 16\nX 16\nX 16\n'
edge "five, six and seven numbers of an order, no day" \
    'O 0 0 7 100 1000\nO 0 0 7 100 1000 0\nO 0 0 7 100 1000 0 0\nO 0 0 7 100 1000 0 \n' 'X 16\nX 17\nX 16\nX 16\n'
edge "five, six and seven numbers of an order" \
    'D 1000 1\nT 33300\nO 0 0 7 100 1000\nO 0 0 7 100 1000 0\nO 0 0 7 100 1000 0 0\nO 0 0 7 100 1000 0\n' \
    'D\nK 1 0\nX 16\nA 1 0 100 0 0\nX 16\nA 2 0 100 0 0\n'
edge "time only moves on" 'D 1000 1\nT 86400\nT 34200\nT 34199\nT 34200\n' 'D\nX 1\nK 4 0\nX 1\nK 4 0\n'

# More replies than the output holds at once: it is written out in rounds.
for _ in {1..60000}; do echo; done > "$work/in"
for _ in {1..60000}; do echo 'X 16'; done > "$work/out"
rehearse < "$work/in" > "$work/whole"
same "60,000 empty lines" "$work/out" "$work/whole"

# It answers as soon as its input allows: the reply is there while the input is still open.
coproc PROGRAM { rehearse; }
pid=$PROGRAM_PID
printf 'D 1000 1\n' >&"${PROGRAM[1]}"
reply=''
read -r -t 10 reply <&"${PROGRAM[0]}"
printf 'D\n' > "$work/out"
printf '%s\n' "$reply" > "$work/in"
same "a reply before the input ends" "$work/out" "$work/in"
eval "exec ${PROGRAM[1]}>&-"
wait "$pid"

# An output that cannot be written is said on standard error, and so is an input that cannot be read.
rehearse < examples/quiet-day.txt > /dev/full 2> "$work/said"
printf 'rehearse: standard output cannot be written\n' > "$work/out"
same "an output that is full" "$work/out" "$work/said"
rehearse < . > "$work/in" 2> "$work/said"
printf 'rehearse: standard input cannot be read\n' > "$work/out"
same "an input that is a folder" "$work/out" "$work/said"

# A script whose last line counts its comparisons. One that stops before that line, or hangs, is a failure.
script() { # COMMAND..
    local last
    timeout 300 "$@" > "$work/said"
    cat "$work/said"
    last=$(tail -n 1 "$work/said")
    if [[ $last =~ ^([0-9]+)\ passed,\ ([0-9]+)\ failed$ ]]; then
        passed=$((passed + BASH_REMATCH[1])) failed=$((failed + BASH_REMATCH[2]))
    else
        failed=$((failed + 1))
        echo "sessions: $* did not finish"
    fi
}

if python3 -c 'import sys; sys.exit(sys.version_info < (3, 9))' 2> /dev/null; then
    export PYTHONDONTWRITEBYTECODE=1
    script tests/pairs.py
    script tests/generated.py
    script tests/generated.py --last-number
    script tests/random_bytes.py
else
    failed=$((failed + 1))
    echo "sessions: no python3 of 3.9 or newer; the stored and made sessions and the random bytes were not run"
fi

echo "$passed passed, $failed failed"
[ "$failed" -eq 0 ]
