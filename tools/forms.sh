#!/bin/sh
# The places of docs/DESIGN-PASS.md, counted in the sources of the checkout at the current folder, or of a COMMIT: tools/forms.sh [COMMIT].
# A line for each form: its point, the count, what was counted.
set -eu
cd "$(dirname "$0")/.."
from=.
if [ $# -gt 0 ]; then
    from=$(mktemp -d)
    trap 'rm -rf "$from"' EXIT
    git archive "$1" crates | tar -x -C "$from"
fi
cd "$from"
sources() { find crates -path '*/out' -prune -o -path '*/src/*.rt' -print | LC_ALL=C sort; }
# places POINT REGEX WHAT: lines that match, comments left out
places() {
    count=$(sources | xargs cat | grep -vE '^ *//' | grep -cE "$2" || true)
    printf '%-2s %5d  %s\n' "$1" "$count" "$3"
}
# said POINT TEXT: how often a text stands in clauses and code
said() {
    count=$(sources | xargs cat | grep -vE '^ *//' | grep -oF "$2" | wc -l)
    printf '%-2s %5d  %s\n' "$1" "$count" "said: $2"
}
places 1 '^(pub )?enum ' 'enums'
places 1 '^ +pub (result|number): u32,$' 'structs with a number of the table beside a value'
places 1 '\) -> u32( \{)?$' 'functions that answer u32'
places 1 '(==|!=) (DONE|UNFIT_TRIT|BLOCK_CHECK|BLOCK_LAYOUT)\b' 'numbers of the table compared'
places 1 '^pub const [A-Z_]+: u(8|32) = [0-9]+;' 'constants for numbers of the table, kinds and stages'
places 1 'Result<' 'lines that name Result'
places 1 '\?[;,)]|\?$' 'uses of ?'
places 1 'Option<' 'lines that name Option'
places 2 '^ *(pub )?fn [a-z_]+_[123]\(' 'functions numbered 1, 2, 3'
places 2 '^ *(pub )?fn [a-z_]+_by_size\(' 'functions that write sizes out, named so'
places 2 'if [nmwf] == [0-9]+' 'sizes written out'
places 2 '\bfn [a-z_]+<[^>]*(const|: |[A-Z])' 'generic functions'
places 3 '^ *while ' 'while loops'
places 3 '^ *(.[a-z]+: )?for ' 'for loops'
places 4 '\b(least|wide|low_byte|less|both|clear_between|put_part)\(' 'least, wide, low_byte, less, both, clear_between, put_part'
places 4 '\b(front|skip|byte_at|put|put_words|put_bytes|last_word|half|put_half)\(' 'front, skip, byte_at, put, put_words, put_bytes, last_word, half, put_half'
places 4 'derive\(' 'derives'
places 4 '^impl .* for ' 'impls of traits'
places 5 '^impl' 'impl blocks'
places 5 '^ *(pub )?ghost [a-z_]+:' 'ghost fields and members'
said 5 'Fits sizes'
said 5 'Fits (layout_in layout)'
said 5 'length file.now ≡ file_size (layout_in layout)'
said 5 'length state.old ≡ state_bytes'
said 5 'length s.old ≡ state_bytes'
places 6 '\[0(u8|u64)?; [A-Z_0-9]+\]' 'arrays of a fixed room'
places 7 '(if|match) (stage|u\.stage|kind|op)\b' 'switches on a stage, a kind or an operation'
places 7 '\b(in_blocks: bool)' 'a flag that says how rows stand'
printf '%-2s %5d  %s\n' 8 "$(find crates -path '*/out' -prune -o -path '*/proofs/*' -name '*.antt' -print | xargs cat | wc -l)" 'lines of proofs'
printf '%-2s %5d  %s\n' 8 "$(find crates -path '*/out' -prune -o -name Answers.antt -print | wc -l)" 'files of answers'
printf '%-2s %5d  %s\n' 8 "$(find crates -path '*/out' -prune -o -name Invariants.antt -print | wc -l)" 'files of invariants'
