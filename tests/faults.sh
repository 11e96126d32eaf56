#!/usr/bin/env bash
# Faults of standard input and output: the programs say them on standard error, and take none for an end of the input; where a
# pipe is not ready they wait for it. Prints what does not hold, and ends with status 1 where anything does not.
# The programs are those in target/bin, or in the folder that is named.
set -uo pipefail
bin=${1:-target/bin}
table=examples/thirteenths.stt
listing=examples/thirteenths.csv
work=$(mktemp -d) || exit 2
trap 'rm -rf "$work"' EXIT
failed=0

# A program that is for another machine is not tried further: `timeout` would hand it to a shell as a script.
"$bin/sheet" >/dev/null 2>&1 || { echo "tests/faults.sh: the programs in $bin do not run here"; exit 1; }

fails() { # WORDS: counts what does not hold
    echo "tests/faults.sh: $1"
    failed=1
}

# Runs a program, or a program of tests/pipes.c and a program, and keeps what it prints and what it says.
run() { timeout 20 "$@" >"$work/out" 2>"$work/err"; }

# The same on a disk that is full.
run_full() { : >"$work/out" && timeout 20 "$@" >/dev/full 2>"$work/err"; }

# The last run printed nothing, and said one fault with its reason.
said() { # FAULT REASON WORDS
    [ ! -s "$work/out" ] && [ "$(cat "$work/err")" = "$1: $2" ] || fails "$3"
}

# The last run printed what stands in a file, and said nothing.
printed() { # FILE WORDS
    cmp -s "$work/out" "$1" && [ ! -s "$work/err" ] || fails "$2"
}

# The last run printed nothing, and said the line of a refusal.
refused() { # LINE WORDS
    [ ! -s "$work/out" ] && [ "$(cat "$work/err")" = "$1" ] || fails "$2"
}

unread='standard input cannot be read'
unwritten='standard output cannot be written'
no_room='No space left on device'

mkdir -p target/c &&
    gcc -std=c11 -O2 -Wall -Wextra -Wpedantic -Werror tests/pipes.c -o target/c/pipes || exit 2

# A million bytes of answers, and the lines that ask for them.
yes '' | head -n 250000 >"$work/lines"
yes bad | head -n 250000 >"$work/bad"

run "$bin/verdict" <"$table"
printed crates/verdict/stdout "verdict judges a table, and says nothing else"
run "$bin/replay" <crates/replay/stdin
printed crates/replay/stdout "replay plays a script, and says nothing else"
run "$bin/sheet"
printed crates/sheet/stdout "sheet judges the bench sheet, and says nothing else"
run "$bin/replay" </dev/null
printed /dev/null "replay has no answer to an empty input, and says nothing"

for program in verdict replay import export; do
    run "$bin/$program" <.
    said "$unread" 'Is a directory' "$program says that a directory cannot be read, and prints nothing"
    run "$bin/$program" <&-
    said "$unread" 'Bad file descriptor' "$program says that a closed input cannot be read, and prints nothing"
done

run_full "$bin/verdict" <"$table"
said "$unwritten" "$no_room" "verdict says that its line cannot be written"
run_full "$bin/replay" <crates/replay/stdin
said "$unwritten" "$no_room" "replay says that its lines cannot be written"
run_full "$bin/replay" <"$work/lines"
said "$unwritten" "$no_room" "replay stops at the first write that fails"
run_full "$bin/sheet"
said "$unwritten" "$no_room" "sheet says once that its lines cannot be written"

run_full "$bin/import" <"$listing"
said "$unwritten" "$no_room" "import says that its table cannot be written"
run_full "$bin/export" <"$table"
said "$unwritten" "$no_room" "export says that its listing cannot be written"

# An input without an end is too long, whatever it is.
run "$bin/import" < <(yes '0,1,1')
refused 'refuse 7 64' "import of an endless text ends, and writes nothing"
run "$bin/export" </dev/zero
refused 'refuse 9 64' "export of endless zeros ends, and writes nothing"

run target/c/pipes late "$listing" "$bin/import"
printed "$table" "import waits for a listing that comes late"
run target/c/pipes late "$table" "$bin/export"
printed "$listing" "export waits for a table that comes late"
run target/c/pipes late "$table" "$bin/verdict"
printed crates/verdict/stdout "verdict waits for a table that comes late"
run target/c/pipes late crates/replay/stdin "$bin/replay"
printed crates/replay/stdout "replay waits for lines that come late"
run target/c/pipes slow "$bin/replay" <"$work/lines"
printed "$work/bad" "replay writes a million bytes to a slow reader"

exit "$failed"
