#!/usr/bin/env bash
# Lines of src/ that may be places of one of the eight points of docs/DESIGN-PASS.md, point by point, and how many there
# are. A net, not a verdict: the page lists which of them are places. Usage: tools/places.sh [COMMIT]
set -u
commit=${1:-HEAD}
point() {
  local hits
  hits=$(git grep -nE "$2" "$commit" -- 'crates/*/src/*.rt' | sed "s/^$commit:crates.//; s#/src/#/#")
  printf '## %s: %s lines\n%s\n' "$1" "$(printf '%s\n' "$hits" | grep -c .)" "$hits"
}
point '1 own Option or Result, flags beside values, numbers for kinds' \
  '\benum |: bool,?$|=> 16\b|= 12;|\((tag|n|code): u32\)|-> Option<\(?.*Fault|-> \(.*\)|struct .*\(pub (Option|bool)'
point '2 twins, by the names of what stands more than once' \
  'fn (is|has|hides_all|all_in_set|blank|read_hex[24]|text|upper|mandatory_prefix|dotted_prefix|append_(dotted_)?table|next_[a-z0-9]+|(naming_)?count|fetch(_naming)?|(opcode|signature)_text|entries|count_like|run|line_of|refused|pair_fault|fault_of|checked|is_pseudo|print_pseudo|format|no_size|size_of|index_outside|index_of|bits|plain|number)\b|struct ([A-Z][a-z]+Name|[A-Z][a-z]+Text|Number|Letter|Mask|Lit|Text)\b|enum Sought|NO_(KIND|OPERAND):|type (Two|Four)'
point '3 loops' '^\s*(for|while|loop)\b|\[[0-4]\]'
point '4 equality, conversion and printing by hand' \
  'matches!\(|\bas (u8|u16|u32|i32|usize|u64)\b|static [A-Z_]+: \[|fn (is|from_code|code|from_row|reason|bits|[a-z]+_of|typed|decimal|upper)\b'
point '5 facts that contracts repeat, parameters that travel together' \
  '^\s*requires|form: &Form,|operands: &\[OperandKind\]|(row|rows): &\[?FormRow|naming: &Naming'
point '6 buffers with a length, parallel arrays, arenas of indices' \
  '\[(u8|OperandKind|u32); |used: |count: u(8|32),|: Vec<|rows: &|namings: &|static (KINDS|ROWS)|start: usize'
point '7 switches on a step' 'Sought::|match (sought|counter)|dyn |fn\('
echo "## 8 proofs: $(git ls-tree -r --name-only "$commit" | grep -c '^crates/.*/proofs/.*\.antt$') files, $(git ls-tree -r --name-only "$commit" | grep '^crates/.*/proofs/.*\.antt$' | while read -r f; do git show "$commit:$f"; done | wc -l) lines"
