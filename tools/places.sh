#!/usr/bin/env bash
# Counts, in the src/ of every crate, the lines in which a place of each point of docs/DESIGN-PASS.md can stand; with -l it
# lists them. Which of them are places, and what became of each, that page says. Run it at the top of a checkout.
set -euo pipefail
list=${1-}
count() { # point, what is looked for, pattern
    local found
    found=$(grep -rnE -e "$3" --include='*.rt' crates/*/src || true)
    printf '%-3s %-42s %s\n' "$1" "$2" "$(grep -c . <<<"$found" || true)"
    if [[ $list = -l && -n $found ]]; then sed 's/^/      /' <<<"$found"; fi
}
count 1a 'errors handed on or turned by hand' 'if let Err\(\w+\)|Err\(\w+\) =>'
count 1b 'enums' '\benum [A-Z]'
count 1c 'bool as result or field' '-> bool|\w: bool'
count 1d 'numbers for cases' '^pub const [A-Z]+: u8 = |\.form\b'
count 1e 'numbers and sets as results' '-> (u8|usize|Names|Option<Refusal>)$'
count 2  'functions' '^ *(pub |pub\(crate\) )?fn [a-z_]+'
count 3  'loops that count' 'for \w+ in .*\.\.|while |\+= 1;'
count 4  'equality, printing, conversion by hand' 'fn (same|is|eq|fmt)\b|fn (of|from)_[a-z]+|\.(number|place)\(\)'
count 5a 'a table with its sides, a row with its n' 'table: &.*\[Node<|n: usize'
printf '%-3s %-42s %s\n' 5b 'clauses that stand three times or more' \
    "$(grep -rhoE -e '(requires|ensures)( \w+)? \{.*\}' --include='*.rt' crates/*/src | sed -E 's/^(requires|ensures)( \w+)? //' | sort | uniq -c | awk '$1 >= 3 { n++ } END { print n + 0 }')"
count 6  'arrays and lengths beside them' '\[\w+; [A-Z_]+\]|\b(count|len|held): usize'
count 7  'switches on a step' 'match (self|class|ask|answer)\b'
answers=$(find crates -path '*/proofs/*' -name Answers.antt -not -path '*/out/*' -exec grep -hE '^pub \S+ : goal\.' {} + | grep -c . || true)
lemmas=$(find crates \( -path '*/proofs/*' -o -path '*/specs/*' \) -name '*.antt' -not -path '*/out/*' -not -name Answers.antt -not -name Invariants.antt -exec grep -hE '^ *(pub )?[A-Za-z_0-9]+ : .*(→|≡)' {} + | grep -c . || true)
printf '%-3s %-42s %s\n' 8a 'answers' "$answers"
printf '%-3s %-42s %s\n' 8b 'definitions and lemmas' "$lemmas"
