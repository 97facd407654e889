#!/usr/bin/env python3
"""Brings the names of this repository's definitions and lemmas to snake case, in every crate, edit and document.

usage: tools/respell.py [--list]      at the top of the repository, once, behind /opt/rattle/port/port.py; --list prints the names and what falls together

Where the new name is taken, by a function of src/, by a word of the library that some file brings in or by another name of this repository, a
definition gets `_of` behind it and a lemma `_lem`; OTHER has the names that are given by hand.

What is renamed: each name that a file of specs/ or proofs/ declares (the folders of the functions' proofs aside, whose names are goals') and that has
capitals behind a lower-case letter (`modeNumber`, now `mode_number`) or a hyphen (`armed-from`, now `armed_from`). Functions of src/ and what the
toolchain makes keep their names. In documents and harness notes a name is renamed inside backticks alone.
"""
import os
import re
import sys

OTHER = {
    "capacityMah": "pack_capacity_mah",
    "rInternal": "pack_r_internal",
    "debounceS": "pack_debounce_s",
    "readField": "field_read",
    "notALine": "not_a_line",
}
# names that port.py has turned in the crates; edits and documents still have the old ones
TURNED = """
add-at add-is add-small after-kept afterOf ahead-none all-done all-none all-once allBelow allE and-parts answerIn answerOf apart-by aroundOf askedOf
at-most at-next at-none at-place atB atE below-each below-power bit-not bitOf bits-fit bits-in bits-of blendOf block-none callsOf calm-run
capacity-spec cellsOf clamp-spec count-same countOf counted-spec cut-all digits-last digits-more digits-number distanceOf div-grows div-is each-below
each-of eight-are endedOf enteredOf enum-told exact-same failsOf fieldOf fieldsOf fill-spec filled-at filled-is finish-spec firstOf fit-none fits-last
fits-next float-back floatAt form-of formOf given-by givenOf going-more going-next height-spec held-fits held-spec heldAt heldOf hereOf highOf holdsOf
in-order in-parts is-field is-true keep-spec kept-same kindOf large-product last-fits last-none last-one last-some lastOf le-not-lt le-of-lt
le-of-not-lt le-test leftOf length-before length-none length-spec lengthOf lent-is limit-is line-at lineOf lines-are lines-fit lines-none lines-split
linesOf low-part main-spec mapped-next maxOf more-left nan-pattern needOf new-spec newton-above next-down next-fits next-up no-less no-more no-room
no-value none-both none-left none-spec not-back num-pos number-at number-in number-lt numberAt numbers-fit ofBits-is on-call one-kept one-line
one-more one-of one-on one-shl one-state one-value openedOf or-l or-r or-split orElse over-first over-none part-at partly-more place-at placeIn
placeOf placed-at point-at pointOf points-kept pow-le-back put-all put-last put-next put-spec put-three putOver range-inside range-same rankOf
read-back read-first read-is read-next read-one read-only readingOf reads-more reads-none rest-all restOf root-below rowOf run-small run-step runOf
same-count same-length same-test seen-by set-holds set-other set-spec sets-behind shl-one size-exact size-small small-is small-product sq-pos startOf
stateOf step-keeps stepOf stored-back stored-is sub-is sub-out sub-read table-empty table-fits tableOf take-more take-next take-none tick-is to-end
told-is told-none told-over too-large turn-spec two-bytes under-low units-of upTo whole-is whole-split wholeOf withNumber within-low write-spec
written-at written-same writtenBy zero-held
""".split()
DECLARED = re.compile(r"^(\s*)(?:(?:abbrev|unfoldable|pub|ruleset)\s+)*([^\s(){};,«».|:\\]+)\s*:(?!:)")
FUNCTION = re.compile(r"\bfn\s+(\w+)")
BROUGHT = re.compile(r"^(?:ghost )?use (?!Rattle\.(?!std\b))[^{]*\{([^}]*)\}", re.M)


def snake(name):
    out = re.sub(r"(?<=[a-z0-9])([A-Z]+)", lambda m: "_" + m.group(1).lower(), name)
    return out.replace("-", "_")


def wants(name):
    if not re.match(r"^[a-z]", name):
        return False
    return bool(re.search(r"[a-z0-9][A-Z]", name)) or bool(re.search(r"[\w'→₀-₉]-[\w'→]", name))


def files(root, *endings):
    for folder, dirs, names in os.walk(root):
        dirs[:] = sorted(d for d in dirs if d not in ("out", ".git", "target"))
        for n in sorted(names):
            if n.endswith(endings):
                yield os.path.join(folder, n)


def is_module(path):
    """A file of definitions or lemmas: right in specs/ or proofs/, not in the folder of a function's proof."""
    return os.path.basename(os.path.dirname(path)) in ("specs", "proofs")


def declared(root):
    names, fields, others = {}, set(), set()
    for path in files(os.path.join(root, "crates"), ".antt"):
        if not is_module(path):
            continue
        with open(path, encoding="utf-8") as f:
            for line in f:
                code = line.split("-- ")[0]
                m = DECLARED.match(code)
                if not m:
                    continue
                if not wants(m.group(2)):
                    others.add(m.group(2))
                    continue
                names.setdefault(m.group(2), path)
                if m.group(1):
                    fields.add(m.group(2))
    return names, fields, others


def taken(root):
    """The names that are something else already: functions of src/, and words of the library that a file brings in."""
    names = set()
    for path in files(os.path.join(root, "crates"), ".antt", ".rt"):
        with open(path, encoding="utf-8") as f:
            text = f.read()
        if path.endswith(".rt"):
            names.update(FUNCTION.findall(text))
        for brought in BROUGHT.findall(text):
            for part in brought.split(","):
                names.update(part.replace(" as ", " ").split())
    return names


def renamed(root):
    names, fields, others = declared(root)
    used = taken(root) | others
    new = {}
    # definitions first, so that of two that fall together the lemma gives way
    for n in sorted(names, key=lambda n: ("-" in n, n)):
        t = OTHER.get(n, snake(n))
        if t in used or t in new.values():
            t += "_lem" if "-" in n else "_of"
        if t in used or t in new.values():
            raise SystemExit(f"respell: {n} and another fall together at {t}")
        new[n] = t
    return new, names, fields


def main():
    root = "."
    turned, names, fields = renamed(root)
    if "--list" in sys.argv:
        for n, new in sorted(turned.items()):
            if new != snake(n):
                print(f"{n} -> {new}  ({names[n]})")
        print(len(turned), "names")
        return
    keep = re.compile(r"(\.)?(?<![^\s(){}\[\];,«».|:\\`\"“”])([a-z][^\s(){}\[\];,«».|:\\`\"“”]*)")

    def turn(text):
        def one(m):
            dot, word = m.group(1) or "", m.group(2)
            # a sentence's last word keeps its apostrophe or comma outside: the pattern stops there
            if word in turned and (not dot or word in fields or re.search(r"[a-z0-9][A-Z]", word)):
                return dot + turned[word]
            return m.group(0)
        return keep.sub(one, text)

    def rewrite(paths, change):
        """Applies a change to each file's text; answers how many files it changed."""
        n = 0
        for path in paths:
            with open(path, encoding="utf-8") as f:
                text = f.read()
            new = change(text)
            if new != text:
                n += 1
                with open(path, "w", encoding="utf-8") as f:
                    f.write(new)
        return n

    crates = os.path.join(root, "crates")
    n = rewrite(files(crates, ".antt", ".rt"), turn)
    for name in TURNED:
        turned.setdefault(name, snake(name))
    n += rewrite(files(crates, ".edit"), turn)
    pages = [p for d in ("docs", "harness") for p in files(os.path.join(root, d), ".md")] + [os.path.join(root, "README.md")]
    n += rewrite(pages, lambda text: re.sub(r"`[^`\n]+`", lambda m: turn(m.group(0)), text))
    print(f"respell: {len(turned)} names, {n} files")


main()
