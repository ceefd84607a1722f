#!/usr/bin/env bash
# Counts the places in src/ that docs/DESIGN-PASS.md speaks of, by the same commands each time. With --list it prints them too.
# With a folder it counts there: tools/places.sh [--list] [FOLDER]
set -euo pipefail
list=0
if [ "${1:-}" = --list ]; then list=1; shift; fi
cd "${1:-$(dirname "$0")/..}"

# count NAME COMMAND..: how many lines the command prints
count() {
    local name=$1 out
    shift
    out=$("$@" || true)
    printf '%-64s %s\n' "$name" "$(printf '%s' "$out" | grep -c '' || true)"
    if [ $list = 1 ] && [ -n "$out" ]; then printf '%s\n' "$out" | sed 's/^/    /'; fi
}

src() { grep -rnE "$1" crates/*/src; }
requires() { grep -rhE '^ *requires' crates/*/src | sed 's/^ *//; s/requires [a-z_]* {/requires {/' | sort | uniq -c | awk '$1 > 2'; }
# of functions that stand alone, so not of a trait's methods, which have one name by design
twins() { grep -rhoE '^(pub(\([a-z]+\))? )?fn [a-z_0-9]+' crates/*/src | sed -E 's/^pub(\([a-z]+\))? //' | sort | uniq -c | awk '$1 > 1 && $3 != "main" { for (i = 0; i < $1; i++) print $2, $3 }'; }
widths() { grep -rnE '\bfn [a-z_]+[0-9]\(' crates/*/src; }
codes() { grep -rnE '^ *pub const [A-Z_]+: u8' crates/machine/src crates/schedule/src | grep -vE ' (COUNTER|VERSION): u8 = (255|1);'; }
answers() { cat crates/*/proofs/*/Answers.antt crates/*/proofs/*/*/Answers.antt crates/*/proofs/*/*/*/Answers.antt 2>/dev/null; }

count '1 a struct with a code beside what it answers' src '^ *pub code: u8'
count '1 an enum with a variant for a failure, or for nothing' src '^ +(Faulty|Malformed|Broken|End)\b'
count '1 a function that answers a code' src '^[^"]*\) -> u8( \{)?$'
count '1 a number for a refusal or a kind' codes
count '1 a flag in a struct' src '^ +pub [a-z]+: bool,'
count '2 a function with the name of another' twins
count '2 a function named for a width' widths
count '3 a loop by hand' src '(\bwhile .*|\bloop) \{$'
casts() { src ' as (u8|u16|u32|usize)\b' | grep -oE '^[^:]*:[0-9]+|\bas (u8|u16|u32|usize)\b' | awk '/:/ { at = $0; next } { print at, $0 }'; }
count '4 a conversion by `as`' casts
count '5 a requires that stands three times or more' requires
count '6 a buffer with a place or a length beside it' src '&mut \[u8\], at: usize|&\[u8\], (n|m): usize'
count '7 a switch by a number' src '\b(kind|tag|byte|place|pending) == [0-9k]|match (kind|tag|byte|place|pending) \{'
count '7 a switch on which step to run' src 'match (x|step|params|own) \{'
count '8 lines of Answers.antt' answers
