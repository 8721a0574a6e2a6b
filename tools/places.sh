#!/bin/sh
# Lists the lines of src/ at which a place of the design pass may stand (docs/DESIGN-PASS.md); with -c it prints only how many.
cd "$(dirname "$0")/.." || exit 1

list() {
    grep -rnE --include='*.rt' -e "$1" crates/*/src | grep -vE "${2:-^$}"
}

point() {
    if [ "$count" ]; then
        printf '%-4s %4d  %s\n' "$1" "$(list "$3" "$4" | wc -l)" "$2"
    else
        printf '\n%s %s\n' "$1" "$2"
        list "$3" "$4"
    fi
}

count=
[ "$1" = -c ] && count=yes
point 1a 'enums' '^ *(pub(\(crate\))? )?enum '
point 1b 'flags: fields and parameters that are a bool' '\b[a-z_]+: (&mut )?bool\b'
point 1c 'functions that answer a number or a pair of them' '\-> \(?(u8|u16|u32|usize)\b'
point 1d 'a fault or state by a bare number' '(number|place|source|target): [0-9_]+,|(source|target) == [0-9]|ERROR'
point 1e 'a match that only hands None, Ok or Err on' 'None => \{\}|Ok\(_\) => \{\}|Err\((e|reason)\) => return Err|Some\((entry|reason|refusal|count)\) => (Err|Ok)?\(?'
point 3a 'loops over a range, while and loop' '\bfor _?[a-z]+ in [^{]*\.\.|\bwhile |\bloop \{' '/tests\.rt:'
point 3b 'loops over items' "^ *('[a-z]+: )?for .*\{\$" '\.\.|/tests\.rt:'
point 4a 'impls of traits' '^ *impl.* for '
point 4b 'comparing, converting and printing functions' 'fn (name|number|same|before|eq|cmp|from|at|print|write|word|field|begun|said|drawn|fewer|lesser|lower|folded|refus)[a-z_]*(<.*>)?\('
point 4c 'a byte asked by its mark' 'match \(?(self, )?classify\('
point 5a 'the grid by its parts, in a contract' 'grid (front|s\.)'
point 5b 'the ledger that a watch shows, by its parts' 'Shows K\.Kind'
point 5c 'a table by its parts' 'table(_of)? [a-z.]*methods\.items'
point 5d 'a draft seen with its text' '\(?view _?text\.now|sofar text\.now|view self\.now\.text'
point 5e 'the sources of a history by their parts' 'meant K\.Kind'
point 5f 'a length that several functions ask' 'requires.*(length (registers|held|scratch|seen)\.(now|old) ≡|length rows\.)'
point 6a 'fixed arrays' '\[[A-Za-z0-9:]+; *[0-9]+\]' '/tests\.rt:'
point 6b 'counts that stand beside a buffer' '^ *(pub(\(crate\))? )?(count|counts|span|used|seen|arity|room): '
point 7a 'macros, function pointers, dyn, a step chosen by a value' 'macro_rules!|\bfn\(|\bdyn |asked: Asked'
