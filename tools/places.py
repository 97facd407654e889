#!/usr/bin/env python3
"""places.py: where src/ may be written in a plainer form, a line a place, by the points of docs/DESIGN-PASS.md.

Run it in the repository's root. It reads text and decides nothing: the page says of each place whether it was one."""
import collections
import glob
import itertools
import re

FILES = {path: open(path, encoding="utf-8").read() for path in sorted(glob.glob("crates/*/src/**/*.rt", recursive=True))}
WORDS = set("fn pub let mut if else while for in match return self Self true false as use mod const struct enum impl crate loop break continue move".split())


def short(path):
    return path.replace("crates/", "").replace("src/", "")


def lines(pattern, head, but=None):
    """The lines that a pattern fits, comments and clauses aside."""
    found = []
    for path, text in FILES.items():
        for number, line in enumerate(text.split("\n"), 1):
            code = line.split("//")[0]
            if re.match(r"\s*(ghost|requires|ensures)\b", code):
                continue
            if re.search(pattern, code) and not (but and re.search(but, code)):
                found.append(f"{short(path)}:{number}: {line.strip()}")
    say(head, found)


def say(head, found):
    print(f"{head}: {len(found)}")
    for it in found:
        print(f"    {it}")


def functions():
    """Each function's crate, name, parameters and body."""
    for path, text in FILES.items():
        for start in re.finditer(r"\bfn (\w+)\s*(?:<[^>{]*>)?\(", text):
            depth, at = 1, start.end()
            while depth:
                depth += {"(": 1, ")": -1}.get(text[at], 0)
                at += 1
            parameters = text[start.end() : at - 1]
            opening = re.compile(r"^\s*\{|\) ?\{$|[\w>\]] \{$|;$", re.M).search(text, at)
            if not opening or text[opening.end() - 1] == ";":
                continue
            depth, end = 1, opening.end()
            while depth and end < len(text):
                depth += {"{": 1, "}": -1}.get(text[end], 0)
                end += 1
            line = text.count("\n", 0, start.start()) + 1
            yield short(path), f"{start.group(1)}:{line}", parameters, text[opening.end() : end - 1]


def shape(body):
    """A body with each name and number as a mark: what two functions share that differ in these alone."""
    body = re.sub(r"//.*", "", body)
    marks = []
    for word in re.findall(r"\w+|[^\s\w]", body):
        marks.append(word if word in WORDS or not re.match(r"\w", word) else "x")
    return " ".join(marks)


def twins():
    by_shape = collections.defaultdict(list)
    for path, name, _, body in functions():
        marks = shape(body)
        if len(marks.split()) >= 24:
            by_shape[marks].append(f"{path}::{name}")
    return sorted(" ~ ".join(it) for it in by_shape.values() if len(it) > 1)


def groups():
    taken = collections.defaultdict(set)
    for path, name, parameters, _ in functions():
        each = {re.sub(r"^mut ", "", it.strip()) for it in re.split(r",(?![^\[(<]*[\])>])", parameters)}
        each -= {"", "self", "&self", "&mut self"}
        for size in (3, 4, 5):
            for group in itertools.combinations(sorted(each), size):
                taken[group].add(f"{path}::{name}")
    many = {group: names for group, names in taken.items() if len(names) >= 3}
    whole = [
        (group, names)
        for group, names in many.items()
        if not any(set(group) < set(other) and names <= others for other, others in many.items())
    ]
    return sorted(f"({', '.join(group)}): {' '.join(sorted(names))}" for group, names in whole)


def facts():
    count = collections.Counter()
    for text in FILES.values():
        for clause in re.findall(r"^\s*(?:requires|ensures)(?: \w+)? \{ (.*) \}$", text, re.M):
            parts = re.split(r" × ", clause)
            for part in {it.strip("() ") for it in parts}:
                if not re.match(r"result(\.\w+)? ≡", part):
                    count[part] += 1
    return [f"{number} times: {fact}" for fact, number in count.most_common() if number >= 3]


def main():
    print("== 1. Option, Result, enums")
    lines(r"^\s*(pub(\(crate\))? )?enum ", "enums")
    lines(r"^\s+(pub )?\w+: bool,$", "flags among the fields of a struct or the parameters of a function")
    lines(r"-> bool\b", "functions that answer a flag")
    lines(r"refusal: u32|refusal\(.*-> u32|fn (number|from_number|severity)\b|const [A-Z_]*(REFUSAL|KIND|ACCEPTED|SHORT_BUFFER|NOT_A_LINE|WRONG_COUNT|OUT_OF_RANGE|NO_OPENING|REPORT_DUE|INADMISSIBLE|TOTALS|SAVES)[A-Z_]*: u32 = \d", "numbers for kinds and refusals")
    lines(r"\bkind == |\bns\[0\] ==", "tests of a kind's number")
    lines(r"return (NUMBER_LIMIT|UNKNOWN|100|0);|^\s+(NUMBER_LIMIT|UNKNOWN)$|NUMBER_LIMIT <=|< NUMBER_LIMIT|10 <= (d|last|ones|tens)|100 <= high", "numbers that stand for no number")
    print("== 2. twins")
    say("functions of one shape", twins())
    print("== 3. loops")
    lines(r"^\s*while ", "while")
    lines(r"^\s*for ", "for")
    print("== 4. equality, order, copying, conversion, printing")
    lines(r"fn (is|eq|graver|smaller|max|min|clamp|saturating_add|flag_number|is_one|print|print_number|say|number|from_number|severity|[a-z]+_at|[a-z]+_from|masks_of)\b", "functions that compare, convert or print")
    lines(r"\) -> \[u32; [^\]]+\]$|\) -> \[u32; [^\]]+\] \{$", "functions that give an array of numbers")
    print("== 5. facts and parameters")
    say("facts of three or more clauses", facts())
    say("parameters that three or more functions take", groups())
    print("== 6. buffers")
    lines(r"^\s+(pub )?(\w+_)?(count|have|len|lent): (usize|u32),$", "lengths among the fields of a struct or the parameters of a function")
    lines(r"\[\.\.(count|n|lent|end|have)\]", "buffers cut to a length")
    print("== 7. switches")
    lines(r"match (call|kind|output|found|asked)\b", "switches on what was asked")
    print("== 8. proofs")
    answers = glob.glob("crates/*/proofs/**/Answers.antt", recursive=True)
    texts = [open(path, encoding="utf-8").read() for path in answers]
    texts = [it for it in texts if "Goals as goal" in it]
    print(f"files of answers: {len(texts)}, answers: {sum(len(re.findall(r'^pub [^:]+ : goal[.]', it, re.M)) for it in texts)}")


main()
