#!/usr/bin/env bash
# LibreOffice Calc opens what is exported, saves it as a spreadsheet and again as text, and that is imported as the same stored table,
# byte by byte; and where it guesses, it is refused, and no other fraction is taken for the one that was keyed. Prints what does not
# hold; ends with 1 where anything does not, and with 2 where there is no LibreOffice.
# The programs are those in target/bin, or in the folder that is named.
#
# What LibreOffice 7.4 does, on Linux:
#   - It ends lines with LF, whatever it has read; that is refused as 18 with 1, and `imported` turns it.
#   - Columns that are set to Text keep every character. Others keep a fraction only where it is no date: with the recognition of
#     dates, as in a cell that is typed, 12/13 is the 13th of December (in England and France 4/3 and 13/12 are dates), while 36/13 and
#     72/13 stay text. A date is exported as a date, 12/13/26, which is refused. But a date that is set to Text or to a number
#     afterwards is its day's number, 46369, and nobody can tell that from a time.
#   - `0 12/13` is a number of 64 bits in a cell of the format `# ?/?`: it shows and exports ` 8/9`, with the blank, which is refused.
#     `=36/13` is 2.76923076923077, which is refused. Every other format of numbers rounds, and what it shows is exported.
#   - An apostrophe before a fraction makes it text, and is not exported; but in a column that is set to Text it is a character.
#   - It quotes a field only where it has to, or all text where that is asked for; both are imported. A blank phase stays blank, empty
#     lines at the end go, and a byte order mark that it read is not written again.
set -uo pipefail
cd "$(dirname "${BASH_SOURCE[0]}")/.." || exit 2
bin=${1:-target/bin}
command -v soffice >/dev/null || {
    echo "tests/spreadsheet.sh: soffice is not on this machine; Debian has it: apt-get install --no-install-recommends libreoffice-calc-nogui" >&2
    exit 2
}

bad=0
room=$(mktemp -d) || exit 2
trap 'rm -rf "$room"' EXIT

# How a listing is opened: comma, double quote, UTF-8, from line 1 on; then the columns (2 is Text), the language, whether a quoted
# field is text, and whether dates are looked for, as they are where nothing is said. How it is saved: the same, and then whether all
# text is quoted, and whether numbers are saved as they are shown.
filter='Text - txt - csv (StarCalc):44,34,76,1'
text_columns=$filter,1/2/2/2/3/2
guessing_american=$filter,,1033,false,true
guessing_english=$filter,,2057,false,true
guessing_german=$filter,,1031,false,true
all_quoted=$filter,,0,true,true

wrong() { # WORDS..
    echo "tests/spreadsheet.sh: $*"
    bad=1
}

# Has LibreOffice open files and save each in another form, in a folder that is new. It says little where it fails, so that is looked
# for.
saved() { # FORM FOLDER INPUT-FILTER FILE..
    local form=$1 folder=$2 input=$3 file name
    shift 3
    rm -rf "$folder"
    soffice --headless "-env:UserInstallation=file://$room/profile" ${input:+"--infilter=$input"} --convert-to "$form" --outdir "$folder" "$@" >"$room/log" 2>&1
    for file in "$@"; do
        name=$(basename "$file")
        [ -s "$folder/${name%.*}.${form%%:*}" ] || wrong "LibreOffice does not save $name as $form: $(cat "$room/log")"
    done
}

# All listings on their way through a spreadsheet and back.
through() { # INPUT-FILTER SPREADSHEET-FORM OUTPUT-FORM
    saved "$2" "$room/sheets" "$1" "$room"/listings/*.csv
    saved "$3" "$room/back" '' "$room"/sheets/*
}

# What came back, with CRLF behind each line, as a stored table; what is said of it is in $room/said.
imported() { # NAME
    # shellcheck disable=SC1003
    sed -e 's/\r*$/\r/' -e '$a\' "$room/back/$1.csv" | "$bin/import" 2>"$room/said"
}

# On the way every table stays what it is.
kept() { # INPUT-FILTER SPREADSHEET-FORM OUTPUT-FORM
    local table name
    through "$@"
    for table in "${tables[@]}"; do
        name=$(basename "$table" .stt)
        imported "$name" | cmp -s - "$table" || wrong "$name comes back otherwise, through $2 and $3: $(cat "$room/said")"
    done
}

# Where a spreadsheet guesses, every table stays what it is or is refused.
guessed() { # INPUT-FILTER
    local table name
    through "$1" ods "csv:$filter,,0,false,true"
    for table in "${tables[@]}"; do
        name=$(basename "$table" .stt)
        imported "$name" >"$room/imported"
        if grep -qx 'refuse 18 [0-9]*' "$room/said"; then
            refused=$((refused + 1))
        else
            cmp -s "$room/imported" "$table" || wrong "$name becomes another table where LibreOffice guesses ($1): $(cat "$room/said")"
        fi
    done
}

# 64 trains, with numbers of up to ten digits.
large() {
    local train
    printf 'phase,period,duration\r\n'
    for train in $(seq 0 63); do printf '%d/4294967291,4294967295/%d,1/%d\r\n' "$train" $((4294967294 - train)) $((train + 2)); done
}

large | "$bin/import" >"$room/large.stt"
printf 'phase,period,duration\r\n4/3,36/13,12/13\r\n,4294967295,1/2\r\n7,72/13,3\r\n' | "$bin/import" >"$room/dates.stt"
tables=(examples/thirteenths.stt examples/one-tick-early.stt "$room/large.stt" "$room/dates.stt")
mkdir "$room/listings"
for table in "${tables[@]}"; do
    listing=$room/listings/$(basename "$table" .stt).csv
    "$bin/export" <"$table" >"$listing"
    [ -s "$listing" ] || { wrong "$table is not exported"; exit 1; }
done

kept "$text_columns" ods csv
kept "$text_columns" xlsx csv
kept "$text_columns" ods "csv:$all_quoted"
refused=0
for input in '' "$filter" "$guessing_american" "$guessing_english" "$guessing_german"; do
    guessed "$input"
done
[ "$refused" -gt 0 ] || wrong "LibreOffice guessed nothing"
[ "$bad" -eq 0 ] && echo "$(soffice --version 2>/dev/null): all exports came back as they were; where it guessed, $refused were refused"

exit "$bad"
