#!/usr/bin/env python3
"""Respells this repository's own definitions and lemmas as today's Rattle does: words in snake case, types in camel case,
a dash only where two names are joined. Run once, at the top, right after port.py. Functions of src/, strings and outputs
keep their names."""
import glob
import re

# A dash stays between two names: what stands left of it is a function or an operation, and so is what stands right of it.
KEPT = """
absorbed-append length-absorbed length-absorbed_all length-opened length-pack length-permuted length-ready
length-rounds length-opened_in length-mixed length-all_rounds length-with bit-and bit-or bit-xor bit-shl bit-shl_under bit-shr
bit-mod bit-mod_over bit-not_over bit-rotate bit-zero bit-number bit-digit bit-of_digit bit-low bit-loaded bit-replaced bits-pack
pack-bits number-bits origin-arrival arrival-origin held-loaded held-set digits-added digits-bits digits-diffused digits-spread
digits-substituted diffused-undoes opened-sealed sealed-opened opened-sealed_in sealed-opened_in pack-set state-pack suc-mul-add
zero-mul-add with_bytes-append put_back-all number-below slice_index-pack respects-added respects-arranged respects-diffused
respects-substituted
"""

# Names that the rule alone would not give.
OTHERS = {
    "One-to-one": "OneToOne",
    "Put-back": "PutBack",
    "Looked-up": "LookedUp",
    "getD-pack": "slice_index-pack",
    "domain-byte": "domain_byte_of",  # a function of src/ has the plain name
    "empty-word": "empty_word_number",  # a field of src/ has the plain name
}

# Names that Rattle makes.
MADE = re.compile(r"^(invariant|loop|returns|overflow|decreases|bounds|invariant_of|ghosts?|pick)-|-(requires|init|preserved|smaller)(-|$)")

DECLARED = re.compile(
    r"^\s*(?:pub |abbrev |unfoldable |record |data )*([^\s:({]+)\s*(?:\{[^}]*\}|\([^)]*\))*\s*:(?!=)", re.M
)

# A name that an import of src/ gives.
RENAMED = re.compile(r" as ([\w']+-[\w'-]+)(?=[,}])")


def texts():
    return sorted(
        glob.glob("crates/*/specs/**/*.antt", recursive=True)
        + glob.glob("crates/*/proofs/**/*.antt", recursive=True)
        + glob.glob("crates/*/src/**/*.rt", recursive=True)
    )


def declared():
    for path in texts():
        if path.endswith(".antt"):
            with open(path, encoding="utf-8") as f:
                yield from DECLARED.findall(f.read())
        else:
            with open(path, encoding="utf-8") as f:
                yield from RENAMED.findall(f.read())


def respelled(name):
    if name in OTHERS:
        return OTHERS[name]
    plain = name.replace("-", "_")
    for kept in KEPT.split():
        if kept.replace("-", "_") == plain:
            return kept
    return plain


def main():
    names = {n for n in declared() if "-" in n and not MADE.search(n)}
    turns = {n: respelled(n) for n in names}
    turns = {old: new for old, new in turns.items() if old != new}
    taken = set(declared())
    for old, new in sorted(turns.items()):
        if new in taken or list(turns.values()).count(new) > 1:
            print(f"falls together: {old} -> {new}")
    one = re.compile(r"(?<![\w'-])(" + "|".join(sorted(map(re.escape, turns), key=len, reverse=True)) + r")(?![\w'-])")
    for path in texts():
        with open(path, encoding="utf-8") as f:
            text = f.read()
        # strings and comments of src/ stay
        parts = re.split(r'("(?:[^"\\\n]|\\.)*"|//[^\n]*)', text) if path.endswith(".rt") else [text]
        for i in range(0, len(parts), 2):
            parts[i] = one.sub(lambda m: turns[m.group(1)], parts[i])
        turned = "".join(parts)
        if turned != text:
            with open(path, "w", encoding="utf-8") as f:
                f.write(turned)
    print(f"{len(turns)} names respelled")


main()
