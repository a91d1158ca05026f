#!/usr/bin/env bash
# What docs/DESIGN-PASS.md counts: for each point the lines of src/ that may be places of it. With -v it prints them.
set -uo pipefail
cd "$(dirname "$0")/.."
code() { grep -rnE "$@" crates/*/src --include='*.rt'; }
show() { # point, what, lines on standard input
    local lines
    lines=$(cat)
    printf '%-3s %4d  %s\n' "$1" "$(printf '%s' "$lines" | grep -c .)" "$2"
    if [ "$verbose" = -v ] && [ -n "$lines" ]; then printf '%s\n' "$lines" | sed 's/^/          /'; fi
}
verbose=${1:-}
code '^(.*fn .*)?\) -> bool' | show 1 'functions that answer a bool'
code '^ *(pub(\([a-z]+\))? )?const [A-Z]+: u' | show 1 'constants that are numbers'
code '65535|[!=]= 0\b|return 0;|else \{ 0 \}|^ *0$|road: 0|with (number|road) 0' | grep -vE 'ghost|ensures|requires' | show 1 'numbers that may say none or which kind'
code '^ *(None => (None|false|0|return)|Some\([a-z]+\) => Some)|let mut [a-z]+ = (true|false);' | show 1 'options and flags taken apart by hand'
grep -rhoE 'fn [a-z_]+' crates/*/src --include='*.rt' | sed 's/^.*fn //' | sort | uniq -d | show 2 'names of functions that are defined more than once'
code '\b(while|loop)\b.*\{$' | grep -v '//' | show 3 'while and loop'
code '\bfor [a-z_]+ in [^{]*\.\.' | show 3 'for over a range of numbers'
code '\+= 1\b|saturating_add\(1\)' | show 3 'counters'
code '^impl.*\b(PartialEq|Eq|PartialOrd|Ord|Clone|Copy|Display|Debug|From<[A-Za-z]+>) for' | show 4 'equality, order, copying, conversion and printing in impls'
code 'fn (number|report|not_dearer|into_[a-z]+|to_[a-z]+|as_[a-z]+)\b' | show 4 'functions that may convert or order'
code 'let [a-z_]+ = (self|tally|fault|refused|arc|passing)\.[a-z_.]+(\(\))?;' | show 4 'fields copied out, mostly to print them'
code 'as (u8|u16|u32)\b' | grep -vE 'ghost|ensures|requires' | show 4 'casts that narrow'
grep -rhE '^ *requires' crates/*/src --include='*.rt' | sed -E 's/^ *requires ([a-z]+ )?//' | sort | uniq -c | sort -rn | awk '$1 > 2' | show 5 'preconditions that three or more functions have'
code '^ *requires' | show 5 'preconditions'
code '\[[A-Za-z0-9<>]+; [A-Z0-9]+\],?$' | grep -v 'const\|let' | show 6 'arrays in structs'
code '\bdyn |: fn\(|= fn\(' | show 7 'dyn and function pointers'
cat $(git ls-files 'crates/*/proofs/*.antt') | wc -l | awk '{for(i=0;i<$1;i++)print "x"}' | (verbose= ; show 8 'lines of proofs/')
git ls-files 'crates/*/proofs/*Answers.antt' | wc -l | awk '{for(i=0;i<$1;i++)print "x"}' | (verbose= ; show 8 'functions with answers')
code '// Kept: ' | show - 'places that stay, with the reason beside them'
