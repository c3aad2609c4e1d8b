#!/usr/bin/env python3
"""Counts old forms in the code of a checkout: python3 tools/count_forms.py [FOLDER] [--list].

One line for each form, with how many places there are; with --list each place on a line of its own. It goes by text alone, so it names places to look
at and judges none. docs/DESIGN-PASS.md says what was found and what was done."""
import difflib
import glob
import os
import re
import sys


def sources(top):
    for path in sorted(glob.glob(os.path.join(top, "crates/*/src/*.rt"))):
        yield os.path.relpath(path, top), open(path, encoding="utf-8").read()


def code(line):
    return line.split("//")[0]


def lines(top, pattern):
    found = []
    for path, text in sources(top):
        for number, line in enumerate(text.splitlines(), 1):
            if re.search(pattern, code(line)) and not line.lstrip().startswith("ghost "):
                found.append(f"{path}:{number}: {line.strip()}")
    return found


# Functions, as (place, name, parameters, body).
def functions(top):
    for path, text in sources(top):
        for m in re.finditer(r"^( *)(?:#\[.*\]\n *)*(?:pub |pub\(crate\) )?(?:const |extern \"C\" )*fn (\w+)", text, re.M):
            start = m.start()
            opening = text.find("(", m.end())
            depth, i = 0, opening
            while True:
                depth += {"(": 1, ")": -1}.get(text[i], 0)
                i += 1
                if depth == 0:
                    break
            parameters = [p for p in re.split(r",(?![^<(]*[>)])", text[opening + 1:i - 1]) if p.strip()]
            brace = re.compile(r"^" + m.group(1) + r"\{\n|\{$", re.M).search(text, i)
            semicolon = text.find(";\n", i)
            if not brace or (semicolon != -1 and semicolon < brace.start()):
                continue
            end = text.find("\n" + m.group(1) + "}", brace.start())
            place = f"{path}:{text.count(chr(10), 0, start) + 1}"
            yield place, m.group(2), parameters, text[brace.start():end]


def own_types(top):
    return lines(top, r"^(pub |pub\(crate\) )?(enum|struct) ")


NUMBER_CODE = (
    r"\b(kind|comparison|aggregate|named|own|kept|part|way|code|form|rule|more|refusal|number) (==|!=|<|<=) [0-9]+"
    r"|\b[0-9]+ (<=|<) (kind|rule)\b|match kind|(Refused|Bad|refused)\([0-9]+\)|^ +[0-9]+((\.\.=| \| )[0-9]+)* =>")


def number_codes(top):
    return lines(top, NUMBER_CODE)


# Pairs of functions whose bodies have the same shape once names and numbers are left out.
def twins(top):
    shapes = []
    for place, name, _, body in functions(top):
        words = re.findall(r"\w+|[^\w\s]", "\n".join(code(l) for l in body.splitlines()))
        kept = {"if", "else", "while", "for", "match", "return", "let", "mut", "in", "true", "false", "as", "Some", "None", "Ok", "Err"}
        shape = [w if w in kept or not re.match(r"\w", w) else ("0" if w[0].isdigit() else "x") for w in words]
        if len(shape) >= 40:
            shapes.append((place, name, shape))
    found = []
    for i, (place, name, shape) in enumerate(shapes):
        for other, second, its in shapes[i + 1:]:
            short, long = sorted((len(shape), len(its)))
            if short * 10 < long * 9:
                continue
            matcher = difflib.SequenceMatcher(None, shape, its, False)
            if matcher.quick_ratio() >= 0.9 and matcher.ratio() >= 0.9:
                found.append(f"{place} {name} ~ {other} {second}")
    return found


# Loops that count: a `while` whose body adds to a variable of its condition.
def counted_loops(top):
    found = []
    for path, text in sources(top):
        rows = text.splitlines()
        for number, line in enumerate(rows, 1):
            m = re.match(r"^( *)(?:'\w+: )?while (.*) \{$", code(line).rstrip())
            if not m:
                continue
            end = next((k for k in range(number, len(rows)) if rows[k] == m.group(1) + "}"), len(rows))
            body = "\n".join(code(l) for l in rows[number:end])
            if any(re.search(r"\b%s (\+|-)= " % v, body) for v in re.findall(r"[a-z_]\w*", m.group(2))):
                found.append(f"{path}:{number}: {line.strip()}")
    return found


def all_while(top):
    return lines(top, r"\bwhile ")


BY_HAND = r"fn (starts_with|same_\w+|copy_\w+|write_bytes|low_bytes|blanks|clear|place_of|wide|word|four_bytes|word_of_four|code|both|common_beginning|front_of)\("


def by_hand(top):
    return lines(top, BY_HAND)


def repeated_facts(top):
    counts = {}
    for path, text in sources(top):
        for number, line in enumerate(text.splitlines(), 1):
            m = re.match(r"^ +requires (?:\w+ )?\{ (.*?) \}?$", line)
            if m:
                counts.setdefault(m.group(1), []).append(f"{path}:{number}")
    return [f"{len(at)} times: {fact} ({at[0]} ..)" for fact, at in sorted(counts.items(), key=lambda c: -len(c[1])) if len(at) >= 3]


def many_parameters(top):
    return [f"{place} {name} ({len(parameters)})" for place, name, parameters, _ in functions(top) if len(parameters) >= 6]


def beside_length(top):
    found = []
    for place, name, parameters, _ in functions(top):
        names = [p.split(":")[0].strip() for p in parameters]
        if {"heads", "next"} <= set(names) or {"list", "listed"} <= set(names) or {"steps", "count"} <= set(names) or {"cells", "n"} <= set(names):
            found.append(f"{place} {name} ({', '.join(names)})")
    return found


FORMS = [
    ("1 own types, to be looked at for the shape of Option or Result or a flag with a value", own_types),
    ("1 numbers for kinds, comparisons, codes and refusals", number_codes),
    ("2 pairs of functions of one shape", twins),
    ("3 loops that count by hand", counted_loops),
    ("3 all loops by while", all_while),
    ("4 comparing, copying and converting by hand", by_hand),
    ("5 facts in the contracts of three or more functions", repeated_facts),
    ("5 functions of six or more parameters", many_parameters),
    ("6 buffers with a length or a second array beside them", beside_length),
    ("7 functions as values, dyn, impl Fn", lambda top: lines(top, r"\bdyn |impl Fn|: Fn|\bfn\(")),
]


def main():
    folders = [a for a in sys.argv[1:] if not a.startswith("--")]
    top = folders[0] if folders else "."
    for name, find in FORMS:
        places = find(top)
        print(f"{len(places):4} {name}")
        if "--list" in sys.argv:
            for place in places:
                print(f"       {place}")
    proofs = [p for p in glob.glob(os.path.join(top, "crates/*/proofs/**/*.antt"), recursive=True)]
    answers = [p for p in proofs if os.path.basename(p) == "Answers.antt"]
    print(f"{len(answers):4} 8 files of answers; {sum(len(open(p, encoding='utf-8').readlines()) for p in proofs)} lines in proofs/")


main()
