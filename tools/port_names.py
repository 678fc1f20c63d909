#!/usr/bin/env python3
"""Respells this repository's own definitions and lemmas as today's Rattle spells names.

usage: port_names.py           at the top of the repository, once, right after the kit's port.py; rewrites files in place

Definitions, lemmas and local names are in snake case. In a lemma's name a dash joins the outer call and the inner one
(length-overlay, Line-hex_text), and a fact keeps its capital (Line_weaken, Wrote_as). Names of functions in src/, goals
and places of a proof, strings, inputs and outputs stay. In README.md and docs/ only what stands between backticks is
turned. Before it writes it looks for names that fall together, and stops if it finds any.
"""
import os
import re
import sys

# a dash becomes an underscore
SNAKE = """
any-yes any-no or-false in-sets made-few few-operands short-name name-passes right-mnemonic small-memory
small-broadcast codes-outside operands-wrong opcode-wrong index-outside length-wrong broadcast-wrong operands-fault
numbers-fault form-fault in-set all-in-set mnemonic-wrong memory-outside naming-fault fault-number encoding-of
prefix-of lkind-of length-of form-got name-got option-of memory-of kind-of kinds-of split-past some-split goes-past
window-of opened-at row-said command-of reason-of with-some five-kinds name-row naming-of of-class absent-missing
seg-rdi-hidden hides-strings has-place below-count past-count is-place one-kind counter-of is-absent is-seg-rdi
is-imm8 is-mask-first hides-all brings-modrm is-memory is-vsib fixes-rm opcode-register is-sti suffix-groups
class-groups role-groups suffix-of role-of both-got plus-two swap-one mask-number vector-number vector-rule
swaps-masks plan-of encoded-some index-small made-small small-group few-counted has-at first-at suffixes-at whole-text
op-code-text address-text operand-text prefix-text rex-text table-text register-text legacy-head length-text
vector-length dotted-prefix dotted-table w-text vec-head legacy-text vec-text d3now-text encoded-text tagged-text
text-with opcode-text first-register binary-text bits-text modrm-info mod-text info-text always-modrm has-mod-rm
has-vsib slash-text brief-text modrm-text suffix-text suffixes-text rest-text is-tag label-text fpu-text size-text
memory-text width-text width-bits gpr-mem-text bank-text word-text number-text letter-text rise-more same-yes
given-over given-mask mask-rank rank-push ranked-on mask-label place-number no-uncounted no-mask vectors-differ
printed-letters printed-none numbers-differ small-number vector-short bound-short mask-short plain-gpr rank-masks
label-by-rank turn-parts parts-before turn-text turn-then turn-as rank-few names-few set-unbroken start-near
masks-then few-walked pseudo-whole walk-whole as-given number-if mask-text pseudo-text implied-text is-legacy
ends-in-imm8 in-bits setting-of is-pseudo signature-text masked-at last-at fetched-past fetched-left fetched-right
fetched-more fetched-rest fetched-some fetched-within named-within name-refused fetched-front cut-is not-in-cut
chained-is in-first fetched-first in-second fetched-second in-neither not-in-chained even-cuts even-chains
refused-here refused-later no-partner none-at pair-passes both-pass length-shelf shelf-count shelf-none shelf-place
described-shelf named-shelf form-here form-passes name-here no-flags pseudo-form front-forms no-memory pseudo-name
front-names window-count window-place joined-count joined-place pair-fault refused-from first-refused shelf-answer
check-shelf shelf-forms shelf-names chained-short answer-short shelf-short front-short check-window check-joined
alike-rest is-like number-from next-digit more-below short-below reads-back was-written overlay-past ok-fits err-full
had-place had-none then-or stop-or then-as number-after no-zero-first decimal-of hex-of is-line hex-digit hex-text
decimal-text upper-byte upper-text few-kinds is-a is-e is-first is-ks is-l is-o is-s is-z letters-run letter-short
not-mvex class-is
""".split()

# other spellings: a dash between the outer call and the inner one, the capital of a fact
OTHER = dict(line.split() for line in """
passed-row Passed_row
ahead-byte ahead-with_byte
length-with-byte length-with_byte
address_line Line-address_text
operand-line Line-operand_text
prefix-line Line-prefix_text
rex-line Line-rex_text
table-line Line-table_text
register-line Line-register_text
length-line Line-length_text
dotted-prefix-line Line-dotted_prefix
dotted-table-line Line-dotted_table
suffix-line Line-suffix_text
op-code-line Line-op_code_text
legacy-head-line Line-legacy_head
w-line Line-w_text
vec-head-line Line-vec_head
bits-line Line-bits_text
slash-line Line-slash_text
suffixes-line Line-suffixes_text
modrm-line Line-modrm_text
rest-line Line-rest_text
vec-line Line_vec
encoded-line Line-encoded_text
tagged-shown Shown-tagged_text
label-line Line-label_text
size-line Line-size_text
memory-line Line-memory_text
width-line Line-width_text
bank-line Line-bank_text
word_line Line-word_text
label-short Short-label_of
gpr-line Line_gpr
bumped-append bumped_by-append
below_more Below_more
below-weaken Below_weaken
parts-append turn_parts-append
implied-line Line-implied_text
pseudo-line Line-pseudo_text
mask-line Line-mask_text
zero-line Line_zero
walk-line Line_walk
mnemonic-line Line_mnemonic
instruction-line Line_instruction
signature-line Line-signature_text
walked_more Walked_more
walked_stop Walked_stop
walked_start Walked_start
walked_all Walked_all
walked_here Walked_here
below_names Below_names
walked_as Walked_as
walked_end Walked_end
fetched-getD fetched_get_or
length_cut length-cut
unbroken-upper unbroken-upper_text
line-lit Line_lit
line-weaken Line_weaken
line-append Line-append
line-cond Line-cond
line-when Line-when
line-hex Line-hex_text
line-decimal Line-decimal_text
line-upper Line-upper_text
line-joined Line-flat_map
wrote_as Wrote_as
begun_more Begun_more
begun-stop Begun_stop
begun_all Begun_all
""".strip().splitlines())

# names that port.py has put into snake case already: for the documents
PORTED = """
address-line alike-end all-digits answer-ok any-none at-place begun-all begun-more below-more below-names below-next
both-is both-of bumped-by by-place by-rank class-of code-of count-of counter-at cut-short digit-value first-of
flags-of form-in form-of full-is in-count in-whole index-at index-of is-last kind-at label-of last-name last-of
last-one length-cut mask-below mask-first mask-one name-in name-of no-digit no-more no-place no-size none-both
none-yet number-at number-of ok-at one-more one-number open-of or-else part-of passed-over place-of plus-one
refused-none row-of rows-seen run-more same-kind same-length size-of split-at split-rest start-of stops-as table-of
tag-of turn-by walk-more walked-all walked-as walked-end walked-here walked-more walked-start walked-stop with-byte
word-line wrote-as
""".split()

TURN = {name: name.replace("-", "_") for name in SNAKE} | OTHER
PAGES = {name: name.replace("-", "_") for name in PORTED} | TURN
NAME = re.compile(r"(?<![\w'·-])[^\W\d][\w'·]*(?:-[\w'·]+)*")
STRING = re.compile(r'("(?:[^"\\]|\\.)*")')


def turn(text, table):
    return NAME.sub(lambda m: table.get(m.group(0), m.group(0)), text)


def outside_strings(line, table):
    parts = STRING.split(line)
    return "".join(part if i % 2 else turn(part, table) for i, part in enumerate(parts))


def names(text):
    """The names that stand alone, not as a part of a path."""
    text = STRING.sub("", text)
    return {m.group(0) for m in NAME.finditer(text) if text[: m.start()][-1:] != "." and text[m.end() :][:1] != "."}


def files(top, ends):
    for folder, dirs, found in os.walk(top):
        dirs[:] = sorted(d for d in dirs if d not in ("out", "target", ".git"))
        for name in sorted(found):
            if name.endswith(ends):
                yield os.path.join(folder, name)


def main():
    wrong = False
    new = {}
    for path in files("crates", (".rt", ".antt", ".edit")):
        old = open(path, encoding="utf-8").read()
        # a name of src/ has no dash, so there only names with one are turned
        table = TURN if path.endswith(".antt") else {a: b for a, b in TURN.items() if "-" in a}
        new[path] = "\n".join(outside_strings(line, table) for line in old.split("\n"))
        had = names(old)
        for a in sorted(had & set(table)):
            if path.endswith(".antt") and table[a] in had:
                print(f"{path}: {a} and {table[a]} would fall together")
                wrong = True
    for path in ["README.md", *files("docs", (".md",))]:
        old = open(path, encoding="utf-8").read()
        new[path] = re.sub(r"`[^`\n]*`", lambda m: turn(m.group(0), PAGES), old)
    if wrong:
        raise SystemExit(1)
    count = 0
    for path, text in new.items():
        if open(path, encoding="utf-8").read() != text:
            count += 1
            open(path, "w", encoding="utf-8").write(text)
    print(f"{len(TURN)} names, {count} files")


if __name__ == "__main__":
    main()
