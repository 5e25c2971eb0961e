#!/usr/bin/env python3
"""Respells the repository's own definitions and lemmas: words in snake case, facts and types in upper camel
case, and a dash only where it joins two names. Run once, at the top, after the kit's port.py."""
import glob
import re

FACTS = {
    "Told-apart": "ToldApart",
    "Seen-by-switch": "SeenBySwitch",
    "Switch-words-rule": "SwitchWordsRule",
    "One-answer": "OneAnswer",
    "Hoist-opens": "HoistOpens",
}

# laws named by their left sides: underscores alone would make the names of the operations bit_and and bit_or of two
# of them, and the other three follow suit
SIDES = {
    "and-digit": "digit-bit_and",
    "or-digit": "digit-bit_or",
    "bit-and": "bit-bit_and",
    "bit-or": "bit-bit_or",
    "or-member": "member-bit_or",
}

WORDS = """
told-apart from-layer record-named layer-name
low-lt low-put seen-by-switch both-named no-guard entry-says with-guard new-book
hold-of held-row put-mode of-held rows-say held-count held-answer held-entry held-new-row of-guards ask-by
holding-sound held-answers held-sound asks-below put-off over-low
none-says among-more or-none no-occurrence first-64 signature-is signature-by
of-rows says-by switches-stay holds-stay with-length guards-count guards-stay says-stay entry-stays all-rows
fresh-rows right-says stands-more right-none right-more
bit-none member-past
front-64 signed-by-lines equations-are variables-are occurrences-are equation-guarded variable-guarded
struck-ledger left-are some-struck none-struck fresh-sheet new-sheet has-guard has-equation has-variable
of-lines of-draft of-issued ledger-of
handing-same onward-none at-end onward-end onward-all onward-more onward-stop whole-true true-whole headed-true
true-headed walked-is from-walk from-stop odd-length-refused bad-header-refused step-more all-zero chosen-reads
hoist-opens stops-within way-none way-more way-zero way-all way-low walked-link chain-low walked-chain
walked-never walked-along links-at one-chain told-met drawn-ledger all-drawn switches-of equations-of
variables-of call-of is-headed by-header by-record odd-length bad-header
and-swap agree-again within-again order-at order-here order-there rows-again place-again rows-zero rising-same
rising-more rising-past signature-of both-active
same-is switch-rule words-mean switch-words entry-word fresh-is word-says entry-bit
""".split()

SPELLING = {**{w: w.replace("-", "_") for w in WORDS}, **SIDES, **FACTS}
NAME = re.compile(r"[^\s(){}.,;:\[\]«»@`'\"]+")


def respelled(text: str) -> str:
    return NAME.sub(lambda m: SPELLING.get(m.group(0), m.group(0)), text)


def clauses(line: str) -> bool:
    """Lines of a source file that may hold names of definitions: comments and strings keep theirs."""
    return not line.lstrip().startswith("//") and '"' not in line


def main() -> None:
    for path in sorted(glob.glob("crates/*/**/*.antt", recursive=True) + glob.glob("crates/*/src/*.rt")):
        with open(path, encoding="utf-8") as f:
            lines = f.read().split("\n")
        sources = path.endswith(".rt")
        comment = "//" if sources else "--"
        new = [x if x.lstrip().startswith(comment) or (sources and not clauses(x)) else respelled(x) for x in lines]
        if new != lines:
            with open(path, "w", encoding="utf-8") as f:
                f.write("\n".join(new))


main()
