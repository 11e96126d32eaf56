#!/usr/bin/env bash
# Counts, in the crates of a checkout, the places where an older form may stand. Usage: count_forms.sh DIR. Reads crates/*/src/*.rt and proofs/.
# Each list is `file:line: text`; a list is places to look at, and its total is the number of its lines.
set -u
cd "${1:?count_forms.sh DIR}" || exit 2
sources=$(ls crates/*/src/*.rt)
totals=$(mktemp)
trap 'rm -f "$totals"' EXIT

# list TITLE: prints what comes on standard input, indented, with its total
list() {
    local text n
    text=$(cat)
    n=$(printf '%s' "$text" | grep -c '' || true)
    printf '\n-- %s: %d\n' "$1" "$n"
    [ "$n" -gt 0 ] && printf '%s\n' "$text" | sed 's/^/   /'
    printf '%-78s %5d\n' "$1" "$n" >> "$totals"
}
# every line that is no comment and no clause, with its place
code() { awk '{ t = $0; sub(/^[ \t]*\/\/.*/, "", t) } t ~ /^[ \t]*(requires|ensures|ghost|\[.*using)/ { next } t != "" { print FILENAME ":" FNR ": " t }' $sources; }
# the functions: file, line, and the signature on one line up to its clauses or its body
signatures() {
    awk 'function flush() { if (open) { gsub(/[ \t]+/, " ", s); print f ":" l ": " s; open = 0 } }
    { t = $0; sub(/[ \t]*\/\/.*$/, "", t) }
    t ~ /^[ \t]*((pub(\([a-z]*\))? )|(const )|(extern "C" ))*fn [a-z_0-9]+/ { flush(); open = 1; s = t; f = FILENAME; l = FNR; if (t ~ /\{[ \t]*$/) flush(); next }
    open && t ~ /^[ \t]*(requires|ensures|where|\{)/ { flush(); next }
    open { s = s t }
    END { flush() }' $sources
}

printf '==== 1. Option and Result shapes, flags, numbers for kinds and for none\n'
awk 'FNR == 1 { inside = 0 } { t = $0; sub(/^[ \t]*\/\/.*/, "", t) }
  t ~ /^(pub )?enum / { inside = 1; name = t; line = FNR; n = 0; v = ""; next }
  inside && t ~ /^\}/ { if (n == 2) print FILENAME ":" line ": " name " " v " }"; inside = 0 }
  inside && t ~ /^    [A-Z]/ { n++; sub(/^ +/, " ", t); v = v t }' $sources | list '1a enums of two variants'
awk 'FNR == 1 { inside = 0 } { t = $0; sub(/^[ \t]*\/\/.*/, "", t) }
  t ~ /^(pub )?enum / { inside = 1; name = t; line = FNR; n = 0; v = ""; r = 0; next }
  inside && t ~ /^\}/ { if (r && n != 2) print FILENAME ":" line ": " name " " v " }"; inside = 0 }
  inside && t ~ /^    [A-Z]/ { n++; if (t ~ /(Refused|Failed|Bad|Missing|Nothing|None)/) r = 1; sub(/^ +/, " ", t); v = v t }' $sources | list '1b enums of more variants, one of which is a refusal or nothing'
awk 'FNR == 1 { inside = 0 } { t = $0; sub(/^[ \t]*\/\/.*/, "", t) }
  t ~ /^(pub )?struct .*\{/ { inside = 1; name = t; line = FNR; v = ""; hit = 0; next }
  inside && t ~ /^\}/ { if (hit) print FILENAME ":" line ": " name v " }"; inside = 0 }
  inside && t ~ /^    / { if (t ~ /(outcome|refused|failed|found|valid|done): / || t ~ /: bool,/) hit = 1; sub(/^ +/, " ", t); v = v t }' $sources | list '1c structs with an outcome or a flag beside a value'
signatures | grep -E -- '-> bool' | list '1d functions that answer a bool (a failure is an Option or a Result)'
code | grep -E 'const [A-Z_0-9]+: (u8|u32|u64|usize) = [0-9]+;' | list '1e constants that are numbers (those that number kinds are an enum)'
code | grep -E '\b(NONE|NO_[A-Z]+|NOT_[A-Z]+|MISSING|u32::MAX|usize::MAX|u64::MAX)\b' | list '1f constants that may stand for none'

printf '\n==== 2. Twins\n'
if command -v duplicates > /dev/null; then
    copy=$(mktemp -d)
    for f in $sources; do n=${f#crates/}; cp "$f" "$copy/$(printf '%s' "$n" | sed 's,/src/,.,; s,\.rt$,.rs,')"; done
    duplicates --repo "$copy" --most 200 --seconds 60 2>&1 | grep -E '^D[0-9]+ ' | grep -v boilerplate | list '2a pairs by the command duplicates (six lines or more)'
    rm -rf "$copy"
fi
# functions whose bodies are the same but for names and numbers
awk 'FNR == 1 { open = 0 } { t = $0; sub(/[ \t]*\/\/.*$/, "", t) }
  t ~ /^[ \t]*((pub(\([a-z]*\))? )|(const )|(extern "C" ))*fn / { name = t; sub(/.*fn /, "", name); sub(/[(<].*/, "", name); line = FNR; clause = 1; body = ""; n = 0; match(t, /^ */); ind = RLENGTH; open = 1; if (t ~ /\{[ \t]*$/) clause = 0; next }
  open && clause { match(t, /^ */); if (RLENGTH == ind && t ~ /^ *\{/) clause = 0; else if (RLENGTH == ind && t ~ /\{[ \t]*$/) clause = 0; next }
  open { match(t, /^ */); if (RLENGTH == ind && t ~ /^ *\}/) { if (n >= 3) { k = body; c[k]++; w[k] = w[k] " " FILENAME ":" line ":" name } open = 0; next }
    if (t ~ /[^ ]/) { n++; gsub(/[A-Za-z_][A-Za-z_0-9:]*/, "x", t); gsub(/[0-9]+/, "0", t); gsub(/[ \t]+/, "", t); body = body t } }
  END { for (k in c) if (c[k] > 1) print c[k] " alike:" w[k] }' $sources | sort -rn | list '2b functions of three lines or more, the same but for names and numbers'

printf '\n==== 3. Loops that count by hand\n'
code | grep -E '\b(while|loop)\b' | list '3a while and loop'
code | grep -E '(\+|-)= 1;' | list '3b an index that goes up or down by one'
code | grep -E '(\+|-)= ' | grep -vE '(\+|-)= 1;' | list '3c other sums that are kept in a variable'
code | grep -E '\bfor [a-z_(]' | list '3d for loops (for comparison)'
code | grep -E '\[[a-z_]+(\.[a-z_]+)?( [+*-] [A-Za-z_:0-9]+)?\]' | list '3e elements by an index'

printf '\n==== 4. Conversions, comparisons, copies and prints by hand\n'
code | grep -E ' as (u8|u16|u32|u64|usize)\b' | list '4a casts with as'
code | grep -E '(/|%) (256|65536|16777216)|>> (8|16|24)|<< (8|16|24)' | list '4b bytes of a number by division or shifts'
signatures | grep -E 'fn (eq|same|equals?|equal|compare|below|above|less|more|copy|clone|print|display|show|from_[a-z]+|to_[a-z]+|is_[a-z]+)\b' | list '4c functions that compare, copy, convert or print'
code | grep -E "==.*&&.*==|!=.*\|\|.*!=" | list '4d comparisons of several fields in a row'

printf '\n==== 5. Facts and parameters that travel together\n'
awk 'FNR == 1 { split(FILENAME, p, "/"); crate = p[2] }
  /^[ \t]*requires/ { t = $0; sub(/^[ \t]*requires[a-z_ ]*\{ */, "", t); sub(/ *\}[ \t]*$/, "", t); c[crate ": " t]++ }
  END { for (k in c) if (c[k] >= 3) print c[k] " times in " k }' $sources | sort -rn | list '5a requires that occur three times or more in a crate'
awk 'FNR == 1 { split(FILENAME, p, "/"); crate = p[2] }
  /^[ \t]*requires/ { n[crate]++ } END { for (k in n) print k ": " n[k] }' $sources | sort | list '5b crates with requires, and how many'
signatures | awk '{ place = $0; sub(/:.*/, "", place); split(place, p, "/"); crate = p[2]; s = $0
    if (match(s, /\(.*\)/) == 0) next
    s = substr(s, RSTART + 1); sub(/\)( ->.*)?$/, "", s); gsub(/, ?\)/, ")", s)
    n = split(s, q, /, */); m = 0
    for (i = 1; i <= n; i++) if (q[i] ~ /^ ?(mut )?[a-z_]+: /) { x = q[i]; gsub(/^ |[ {]+$/, "", x); r[++m] = x }
    for (i = 1; i < m; i++) for (j = i + 1; j <= m; j++) c[crate ": " r[i] ", " r[j]]++ }
  END { for (k in c) if (c[k] >= 3) print c[k] " signatures in " k }' | sort -rn | list '5c pairs of parameters in three signatures or more of a crate'

printf '\n==== 6. Buffers with a length beside, parallel arrays, searches by hand\n'
signatures | grep -E ': &(mut )?\[[^]]*\].*\b(length|len|count|kept|end|used|filled|limit): usize' | list '6a a slice or an array with its length or end beside'
signatures | grep -E ': &(mut )?\[[^]]*\].*\b(at|i|index|position|from|start): usize' | list '6b a slice with an index beside'
awk 'FNR == 1 { inside = 0 } { t = $0; sub(/^[ \t]*\/\/.*/, "", t) }
  t ~ /^(pub )?struct .*\{/ { inside = 1; name = t; line = FNR; v = ""; arrays = 0; count = 0; next }
  inside && t ~ /^\}/ { if (arrays > 1 || (arrays && count)) print FILENAME ":" line ": " name v " }"; inside = 0 }
  inside && t ~ /^    / { if (t ~ /: \[/) arrays++; if (t ~ /(count|length|end|kept|used|filled): (usize|u32)/) count = 1; sub(/^ +/, " ", t); v = v t }' $sources | list '6c structs of an array with a count, or of two arrays'

printf '\n==== 7. Choices of a step\n'
awk 'FNR == 1 { inside = 0 } { t = $0; sub(/^[ \t]*\/\/.*/, "", t) }
  t ~ /(^| |[(])match .*\{$/ { inside = 1; line = FNR; name = t; n = 0; split("", seen); kinds = 0; match(t, /^ */); ind = RLENGTH; next }
  inside && t ~ /=> [a-z_:]+\(/ { f = t; sub(/.*=> /, "", f); sub(/\(.*/, "", f); if (!(f in seen)) { seen[f] = 1; kinds++ } }
  inside { match(t, /^ */); if (RLENGTH == ind && t ~ /^ *\}/) { if (kinds > 1) { sub(/^ +/, "", name); print FILENAME ":" line ": " name " (" kinds " functions)" } inside = 0 } }' $sources | list '7a matches whose arms call different functions'
awk 'FNR == 1 { chain = 0; first = 0 } { t = $0; sub(/^[ \t]*\/\/.*/, "", t) }
  t ~ /^ *if .*\{$/ { if (chain == 0) first = FNR; chain++; next }
  t ~ /^ *\} else if / { chain++; next }
  t ~ /^ *(\}|return|continue|break)/ || t ~ /^ *$/ { next }
  { if (chain >= 3) print FILENAME ":" first ": " chain " tests in a row"; chain = 0 }
  END { if (chain >= 3) print FILENAME ":" first ": " chain " tests in a row" }' $sources | list '7b three tests or more in a row'
code | grep -E '(const|static) [A-Z_0-9]+: (&|\[)' | list '7c tables of constants'

printf '\n==== 8. Proofs\n'
for c in $(ls crates); do
    [ -d "crates/$c/proofs" ] || continue
    files=$(find "crates/$c/proofs" -name Answers.antt | wc -l)
    lines=$(find "crates/$c/proofs" -name Answers.antt -exec cat {} + | wc -l)
    answers=$(find "crates/$c/proofs" -name Answers.antt -exec cat {} + | grep -cE '^pub [^ ]+ : goal\.')
    laws=$(find "crates/$c/proofs" -maxdepth 1 -name '*.antt' -exec cat {} + 2> /dev/null | wc -l)
    code=$(cat "crates/$c"/src/*.rt | wc -l)
    printf '%s: %d functions with answers, %d answers, %d lines of answers, %d lines of laws, %d lines of code\n' "$c" "$files" "$answers" "$lines" "$laws" "$code"
done | list '8a crates with proofs'
printf 'lines of Answers.antt: %d\nanswers: %d\nlines of laws: %d\nlines of Invariants.antt: %d\nlines of specs: %d\nlines of code: %d\n' \
    "$(find crates/*/proofs -name Answers.antt -exec cat {} + | wc -l)" \
    "$(find crates/*/proofs -name Answers.antt -exec cat {} + | grep -cE '^pub [^ ]+ : goal\.')" \
    "$(find crates/*/proofs -maxdepth 1 -name '*.antt' -exec cat {} + | wc -l)" \
    "$(find crates/*/proofs -name Invariants.antt -exec cat {} + | wc -l)" \
    "$(find crates/*/specs -name '*.antt' -exec cat {} + | wc -l)" \
    "$(cat $sources | wc -l)" | list '8b in all'

printf '\n==== Totals\n'
cat "$totals"
