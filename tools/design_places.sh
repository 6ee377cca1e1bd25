#!/bin/bash
# Lists the places in src/ that docs/DESIGN-PASS.md goes through, a heading for each point, so that they can be
# counted again. A line is a place to look at: the page says which of them are what the point means.
# Run it at the top of a checkout; with a commit as its argument it reads that commit.
at="${1:-HEAD}"
places() {
    echo "== $1"
    git grep -nE "$2" "$at" -- 'crates/*/src/*.rt' | sed "s/^$at://" | grep -vE "${3:-^$}|/tests\.rt:|ghost use|:use |: *//"
}

places '1 enums' '^\s*(pub(\([a-z]+\))? )?enum '
places '1 flags beside values' '^\s+(pub(\([a-z]+\))? )?\w+: bool,'
places '1 a number for none' '(return|=>|\() ?NO_NUMBER|== NO_NUMBER'
places '1 numbers for kinds and refusals' '=> (Told::new\()?[0-9]+,|\.refusal\(\)|fn (number|layer|place)\(&self\)'
places '1 answers without a reason' '\) -> (Option|Result<Option)<'
places '2 by width or count' 'fn \w*(u16|u32|u64|_pair|_bytes|_number|_le_|_be_)\w*'
places '2 by a constant' 'fn (digit_byte|record_bytes|volume)\b|const (DIGIT|RECORD_LEN)'
places '2 by what is done to each' 'fn (total_\w+|own_volume|drained\w*|\w*outflow|note|step|bytes|site_file)\b'
places '3 loops' '^\s*(for|while|loop)\b.*\{$'
places '4 casts' '\bas (u|i)(8|16|32|64|size)\b'
places '4 texts by hand' "Result<String, AllocError>|&'static str$|text: &mut String"
places '4 conversions by hand' 'fn (kind_of|edition_of|edition_number|parse|number|two_numbers|first_space|shown_from|own_volume)\b'
places '4 impls that print or convert' '^impl.* (fmt::Display|From<.*>|TryFrom<.*>|Default|PartialEq|PartialOrd|Clone) for'
places '5 facts in clauses' 'Shows (self|site)|format E\.Edition|length tail\.now|at \+ 8 < 2|count < 1023|root < 1023|Rooted|stacked |capacity '
places '5 travelling together' 'waiting: &mut Stack|table: &mut Table|said: &Record|row: u16|note: usize,'
places '6 a buffer and its length, arenas' '^\s+(count|len): usize,|^\s+cut: u16,|nodes: \['
places '7 switches on a step' 'EditionName::(First|Second) =>|Command::\w+ .*=>|\bdyn |\bfn\('

echo '== 8 proofs, by crate: files of answers, files, lines'
for crate in $(git ls-tree --name-only "$at" crates/); do
    files=$(git ls-tree -r --name-only "$at" "$crate/proofs" | grep '\.antt$')
    [ -z "$files" ] && continue
    lines=0
    for file in $files; do lines=$((lines + $(git show "$at:$file" | wc -l))); done
    echo "$(basename "$crate") $(echo "$files" | grep -c 'Answers.antt$') $(echo "$files" | wc -l) $lines"
done
