#!/usr/bin/env bash
# docs/PROMISES.md names what there is, and all of it: each name is defined in the file behind which it stands, and no promise,
# public call or must-fail edit is left out, those of each crate by themselves. Prints what does not hold; 1 where anything does not.
set -uo pipefail
cd "$(dirname "${BASH_SOURCE[0]}")/.." || exit 2

# What the rows of the page cite, a line each: file, tab, name. A row is '| words | `file`: `name`, `name`; `file`: `name` |'.
cited() {
    awk -F'|' '
        /^\|/ {
            cell = $(NF - 1)
            file = ""
            while (match(cell, /`[^`]*`/)) {
                token = substr(cell, RSTART + 1, RLENGTH - 2)
                cell = substr(cell, RSTART + RLENGTH)
                if (substr(cell, 1, 1) == ":") file = token
                else print file "\t" token
            }
        }' docs/PROMISES.md
}

# What has to be cited, likewise: the fields of the records of promises, the public calls, the must-fail edits.
to_be_cited() {
    grep -oE '^  pub [^ ]+ :' crates/*/specs/Promises.antt | sed -E 's/^([^:]+):  pub ([^ ]+) :$/\1\t\2/'
    grep -oE 'pub (extern "C" )?fn [a-z0-9_]+' crates/*/src/lib.rt | sed -E 's/^([^:]+):/\1\t/'
    for edit in crates/*/must-fail/*.edit further/*/*.edit; do printf '%s\t%s\n' "$edit" "$(sed -n '1s/^# //p' "$edit")"; done
}

# A name of one word is defined in a file of definitions, where its line has nothing in front of it but such words as `pub record` and a
# type or arguments behind it; in a file of code, behind `fn`, `struct`, `enum` or `const`. An edit is cited by its first line. All
# else is text that stands in the file, with no further letter at either end.
defined() { # FILE NAME
    name=$2 awk -v file="$1" '
        function letter(c) { return c ~ /[A-Za-z0-9_-]/ }
        function whole(line, at,   before, behind) {
            before = at > 1 ? substr(line, at - 1, 1) : " "
            behind = substr(line, at + length(name), 1)
            return !(letter(before) && letter(substr(name, 1, 1))) && !(letter(behind) && letter(substr(name, length(name))))
        }
        function stands(line,   from, at) {
            from = 1
            while ((at = index(substr(line, from), name)) > 0) {
                if (whole(line, from + at - 1)) return 1
                from += at
            }
            return 0
        }
        BEGIN {
            name = ENVIRON["name"]
            antt = file ~ /\.antt$/ && name !~ / /
            code = file ~ /\.rt$/ && name ~ /^[A-Za-z0-9_]+$/
        }
        file ~ /\.edit$/ { found = $0 == "# " name; exit }
        antt {
            at = 1
            while ($at ~ /^(pub|abbrev|unfoldable|record|data)$/) at++
            if ($at == name && (NF == at || $(at + 1) ~ /^[:({]/)) { found = 1; exit }
            next
        }
        code {
            for (at = 1; at < NF; at++)
                if ($at ~ /^(fn|struct|enum|const)$/ && index($(at + 1), name) == 1 && whole($(at + 1), 1)) { found = 1; exit }
            next
        }
        stands($0) { found = 1; exit }
        END { exit !found }' "$1"
}

bad=0
pairs=$(cited) || exit 1
[ -n "$pairs" ] || { echo "docs/PROMISES.md cites nothing"; exit 1; }
while IFS=$'\t' read -r file name; do
    if [ ! -f "$file" ]; then
        echo "docs/PROMISES.md: $name stands behind no file: '$file'"
        bad=1
    elif ! defined "$file" "$name"; then
        echo "docs/PROMISES.md: $name is not defined in $file"
        bad=1
    fi
done < <(sort -u <<<"$pairs")
left=$(comm -13 <(sort -u <<<"$pairs") <(to_be_cited | sort -u))
[ -z "$left" ] || { echo "docs/PROMISES.md leaves out:"; echo "$left"; bad=1; }
exit "$bad"
