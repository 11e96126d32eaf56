#!/usr/bin/env bash
# What ./urzabelki promises of its commands: the line on standard output, words at a terminal alone or below the line of a refused
# listing, the status, and that nothing is passed over. Prints what does not hold; 1 where anything does not.
set -uo pipefail
cd "$(dirname "${BASH_SOURCE[0]}")/.." || exit 2

bad=0
room=$(mktemp -d) || exit 2
trap 'rm -rf "$room"' EXIT
stored=examples/one-tick-early.stt

# Runs a command, and keeps what it prints apart.
said() { "$@" >"$room/out" 2>"$room/err"; } # COMMAND..

wrong() { # WORDS..
    echo "tests/commands.sh: $*"
    bad=1
}

# A command prints just that line, ends with that status, and says nothing or something on standard error.
prints() { # LINE STATUS quiet|speaks COMMAND..
    local line=$1 status=$2 voice=$3 got=0
    shift 3
    said "$@" || got=$?
    [ "$(cat "$room/out")" = "$line" ] || wrong "$* prints '$(cat "$room/out")', not '$line'"
    [ "$got" -eq "$status" ] || wrong "$* ends with $got, not $status"
    case $voice in
    quiet) [ ! -s "$room/err" ] || wrong "$* says '$(cat "$room/err")'" ;;
    speaks) [ -s "$room/err" ] || wrong "$* says nothing on standard error" ;;
    esac
}

# ---- the verdict on a stored table

prints 'accept 13 1' 0 quiet ./urzabelki verdict examples/thirteenths.stt
prints 'collide 0 1 11 13 1' 1 quiet ./urzabelki verdict "$stored"
prints 'refuse 5 0' 1 quiet ./urzabelki verdict examples/too-fine.stt
prints 'collide 0 1 11 13 1' 1 quiet ./urzabelki verdict <"$stored"
prints 'collide 0 1 11 13 1' 1 quiet ./urzabelki verdict <(cat "$stored")
prints 'collide 0 1 11 13 1' 1 quiet ./urzabelki verdict /dev/stdin <"$stored"
prints 'refuse 11 64' 1 quiet ./urzabelki verdict </dev/null
prints '' 2 speaks ./urzabelki verdict examples
prints '' 2 speaks ./urzabelki verdict no-such-file
prints '' 2 speaks ./urzabelki verdict </
prints '' 2 speaks ./urzabelki verdict "$stored" "$stored"
prints '' 2 speaks ./urzabelki verdicts

# ---- listings

listing=examples/thirteenths.csv

# A command writes just the bytes of a file, ends with 0 and says nothing.
writes() { # FILE COMMAND..
    local file=$1
    shift
    said "$@" || wrong "$* ends with $?, not 0"
    cmp -s "$room/out" "$file" || wrong "$* does not write what $file has"
    [ ! -s "$room/err" ] || wrong "$* says '$(cat "$room/err")'"
}

# A listing is refused with that line, nothing is written, and the words below it name what is wrong.
refuses() { # LINE WORDS TEXT
    local got=0
    printf "$3" >"$room/listing.csv"
    said ./urzabelki import "$room/listing.csv" || got=$?
    [ "$got" -eq 1 ] || wrong "import of '$3' ends with $got, not 1"
    [ ! -s "$room/out" ] || wrong "import of '$3' is refused, and writes"
    [ "$(head -n 1 "$room/err")" = "$1" ] || wrong "import of '$3' says '$(head -n 1 "$room/err")', not '$1'"
    grep -q "$2" <(tail -n +2 "$room/err") || wrong "import of '$3' does not say '$2'"
    prints "$1" 1 quiet ./urzabelki verdict "$room/listing.csv"
}

writes examples/thirteenths.stt ./urzabelki import "$listing"
writes examples/thirteenths.stt ./urzabelki import examples/quoted.csv
writes examples/thirteenths.stt ./urzabelki import <"$listing"
writes examples/thirteenths.stt ./urzabelki import <(cat "$listing")
writes "$listing" ./urzabelki export examples/thirteenths.stt
writes "$listing" ./urzabelki export <examples/thirteenths.stt
prints 'accept 13 1' 0 quiet ./urzabelki verdict "$listing"
prints 'accept 13 1' 0 quiet ./urzabelki verdict examples/quoted.csv
prints 'refuse 18 4' 1 quiet ./urzabelki verdict examples/decimals.csv
prints 'refuse 18 1' 1 quiet ./urzabelki verdict examples/line-ends.csv
prints '' 1 speaks ./urzabelki export "$listing"
grep -q 'This is a listing' "$room/err" || wrong "export does not know a listing"
prints '' 1 speaks ./urzabelki export examples/not-lowest.stt
grep -q '^refuse 12 1$' "$room/err" && grep -q 'right file' "$room/err" || wrong "export does not say what is wrong with a stored table"
prints '' 1 speaks ./urzabelki import examples/thirteenths.stt
grep -q 'stored table already' "$room/err" || wrong "import does not know a stored table"
prints '' 1 speaks ./urzabelki import </dev/null
# What README.md shows of a refused listing is what a person sees.
said ./urzabelki import examples/decimals.csv
cmp -s "$room/err" <(sed -n '/^    .\/urzabelki import examples\/decimals.csv$/,/^$/p' README.md | sed '1d;/^$/d;s/^    //') ||
    wrong "README.md does not show what import says of examples/decimals.csv"
for command in import export; do
    prints '' 2 speaks ./urzabelki "$command" examples
    prints '' 2 speaks ./urzabelki "$command" no-such-file
    prints '' 2 speaks ./urzabelki "$command" </
    prints '' 2 speaks ./urzabelki "$command" "$listing" "$listing"
done
heading='phase,period,duration\r\n'
refuses 'refuse 18 1' 'LF alone' 'phase,period,duration\n0,1,1\n'
refuses 'refuse 18 1' 'byte order mark' "\xef\xbb\xbf${heading}0,1,1\r\n"
refuses 'refuse 18 1' 'UTF-16' 'p\0h\0a\0s\0e\0'
refuses 'refuse 18 1' 'semicolons' 'phase;period;duration\r\n0;1;1\r\n'
refuses 'refuse 18 2' 'decimal comma' "${heading}0;2,25;1\r\n"
refuses 'refuse 18 3' 'decimal commas' "${heading}0,1,1\r\n0,\"2,25\",1\r\n"
refuses 'refuse 18 2' 'decimal points' "${heading}0,2.25,1\r\n"
refuses 'refuse 18 2' 'date' "${heading}0,13-Dec,1\r\n"
refuses 'refuse 18 2' 'blanks' "${heading}0, 1,1\r\n"
refuses 'refuse 18 2' 'is blank' "${heading}0,,1\r\n"
refuses 'refuse 18 3' 'empty line' "${heading}0,1,1\r\n\r\n0,1,1\r\n"
refuses 'refuse 18 2' '4294967295' "${heading}0,1,4294967296\r\n"
refuses 'refuse 3 1' 'record 3' "${heading}0,1,1\r\n0,0,1\r\n"
refuses 'refuse 4 0' 'record 2' "${heading}0,1,2\r\n"
refuses 'refuse 1 64' '64 trains' "$heading$(printf '0,1,1\\r\\n%.0s' {1..65})"
refuses 'refuse 7 64' '4311' "$heading$(printf '0%.0s' {1..32768}),1,1"

# ---- a table that is keyed in

prints 'accept 13 1' 0 quiet ./urzabelki judge 0 36/13 12/13 12/13 72/13 12/13
prints 'collide 0 1 11 13 1' 1 quiet ./urzabelki judge 0 36/13 12/13 11/13 72/13 12/13
prints 'refuse 4 1' 1 quiet ./urzabelki judge 0 36/13 12/13 0 3 10/3
prints 'refuse 2 0' 1 quiet ./urzabelki judge 0 1/0 1
prints 'accept 1 0' 0 quiet ./urzabelki judge
prints 'accept 4 1' 0 quiet ./urzabelki judge 0.5 2.25 0.25 1 4.50 0.50
prints 'accept 4 1' 0 quiet ./urzabelki judge 1/2 9/4 1/4 1 9/2 1/2
for word in '' x -1 +1 1/ /2 1/2/3 1..2 1.5/2 1e3 0x10 4294967296 1/4294967296 0.0000000001 ' 1' '1 '; do
    prints '' 2 speaks ./urzabelki judge "$word" 1 1
done
prints '' 2 speaks ./urzabelki judge 0 1

# ---- calls of a dispatcher

prints $'fresh\nplace 0\nplace 1\nstarts 0\nrefuse 15 0\nplace 2' 0 quiet ./urzabelki replay examples/sheet.calls
prints 'bad' 0 quiet ./urzabelki replay <(echo nonsense)
prints '' 2 speaks ./urzabelki replay examples
prints '' 2 speaks ./urzabelki replay </

# ---- what cannot be printed is told

for command in "verdict $stored" "verdict $listing" "import $listing" 'export examples/thirteenths.stt' 'judge 0 1 1' 'replay examples/sheet.calls' sheet; do
    # the words of a command here have no spaces
    # shellcheck disable=SC2086
    ./urzabelki $command >/dev/full 2>"$room/err"
    [ $? -eq 2 ] || wrong "$command on a full disk does not end with 2"
    [ -s "$room/err" ] || wrong "$command on a full disk says nothing"
done

# ---- at a terminal words follow

# What a person sees.
seen() { script -qec "$1" /dev/null </dev/null; } # COMMAND

sees() { # COMMAND WORDS
    local screen
    screen=$(seen "$1")
    [[ -n $2 && $screen == *"$2"* ]] || wrong "$1 at a terminal does not say: $2"
}
sees "./urzabelki verdict $stored" 'Trains 0 and 1'
sees "./urzabelki verdict $stored" '11/13 ms'
sees './urzabelki judge 0 3 10/3' "$(sed -n 's|^ *URZABELKI_REFUSAL_[A-Z_]* = 4, */\* \(.*\) \*/$|\1|p' include/urzabelki.h)"
sees './urzabelki judge 0 1 1' 'Accepted'
sees './urzabelki verdict examples/decimals.csv' 'decimal points'
[[ $(seen "./urzabelki verdict $stored | cat") != *Trains* ]] || wrong "words go to a pipe"

exit "$bad"
