#!/bin/sh
# Counts the places of docs/DESIGN-PASS.md in src/. Run it at the top of a checkout; with `-l` it lists them.
list() { grep -rnE "$2" crates/*/src --include='*.rt' | sed "s/^/$1 /"; }
all() {
    list 1a '^(pub )?enum '
    list 1b 'Option<Refusal>|Result<Result<|known: bool|wanted: bool'
    list 1c 'Some\(fault\)|Err\(_\) => Err|is_err\(\) \{'
    list 2a 'impl .*(Keep<|Test for|Ordered for)'
    list 3a '^ *(.[a-z]+: )?(while|loop|for [a-z_]+ in .*\.\.)'
    list 4a 'impl .*(Display|From<.*>) for|fn (same|before|same_key|flag|command_cells|read_command|at_line|text|sign)\(|pub struct [A-Z][a-z]+\(pub'
    list 5a 'requires .*(n \* |store_size ≤|known ≡)'
    list 5b 'terms: Terms, *watermark: u64|^ *watermark: u64,$'
    list 6a '(table|visits|store): &(mut )?\[u64\]|\[Visit; 3\]'
    list 7a 'enum (Class|Step|By)|trait (Keep|Test)'
}
if [ "$1" = -l ]; then all; else all | cut -d' ' -f1 | sort | uniq -c; fi
printf 'lines in proofs/: '
find crates/*/proofs -name '*.antt' -not -path '*/rlib/*' -exec cat {} + | wc -l
printf 'lines in src/: '
cat $(find crates/*/src -name '*.rt') | wc -l
