#!/usr/bin/env python3
"""Lists the places of docs/DESIGN-PASS.md in crates/*/src, point by point: tools/places.py [POINT..] [--list]

A place is a function, a type or a line of code, as the point's comment says. Comments, imports and clauses are not counted.
"""
import pathlib
import re
import sys

ROOT = pathlib.Path(__file__).resolve().parent.parent


def code_of(text):
    """The text with comments, ghost imports and clauses blanked, line by line."""
    out, depth = [], 0
    for line in text.split("\n"):
        line = re.sub(r"//.*", "", line)
        start = re.match(r"\s*(requires|ensures|ghost)\b", line)
        if depth or (start and "{" in line):
            depth += line.count("{") - line.count("}")
            out.append("")
        elif line.lstrip().startswith("ghost use"):
            out.append("")
        else:
            out.append(line)
    return out


def functions(lines):
    """(name, first line, signature, body) of each function."""
    i = 0
    while i < len(lines):
        found = re.match(r"\s*(?:pub(?:\([a-z]+\))? )?(?:const )?(?:extern \"C\" )?fn (\w+)", lines[i])
        if not found:
            i += 1
            continue
        end, depth, opened = i, 0, False
        while end < len(lines):
            depth += lines[end].count("{") - lines[end].count("}")
            opened = opened or "{" in lines[end]
            if opened and depth == 0:
                break
            end += 1
        text = "\n".join(lines[i:end + 1])
        head, _, body = text.partition("{")
        yield found[1], i + 1, head, body
        i = end + 1


def parameters(head):
    inside = head[head.index("("):].rsplit("->", 1)[0]
    return len(re.findall(r"\w+:", inside)) + len(re.findall(r"[(&\s]self\b", inside))


# 1: own enums of the shape of Option or Result, flags beside values, and functions that answer or take a refusal, a kind or "none" as a number.
def point_1(lines):
    for n, line in enumerate(lines, 1):
        if re.match(r"(pub )?enum (\w+)", line):
            name = re.match(r"(pub )?enum (\w+)", line)[2]
            body = "\n".join(lines[n:n + 12]).split("\n}")[0]
            if re.search(r"^    (Refused|None|Impossible|Wrong|Unknown)\b", body, re.M):
                yield n, "enum " + name
        if re.match(r"\s*(pub )?every: bool", line):
            yield n, "flag " + line.strip()
    for name, at, head, body in functions(lines):
        both = head + body
        if re.search(r"\bnumbers::|\bFAILED\b|\b(RECORDS|NESTING|WORDS|ROWS)\b|number != 0|\b16 <= |return 16", both):
            yield at, "refusal or none as a number: " + name
        elif re.search(r"\bkind\b", both):
            yield at, "kind as a number: " + name


# 3: loops that count an index by hand, and for loops over a range of indices.
def point_3(lines):
    for n, line in enumerate(lines, 1):
        if re.match(r"\s*while ", line) or re.match(r"\s*for \w+ in [^{]*\.\.", line):
            yield n, line.strip()


# 4: conversions, comparisons and printing written by hand.
def point_4(lines):
    for n, line in enumerate(lines, 1):
        if re.search(r" as (u8|u16|u32|u64|usize)\b", line):
            yield n, line.strip()
    for name, at, head, body in functions(lines):
        if re.match(r"(larger|at_most|wide\w*|hex_digit|named|outcome|matched_in|outcome_number|of_(open|edit|read|list|look_up))$", name):
            if " as " not in body and "try_from" not in body:
                yield at, "fn " + name


# 5: functions with six parameters or more.
def point_5(lines):
    for name, at, head, body in functions(lines):
        if parameters(head) >= 6:
            yield at, f"fn {name}: {parameters(head)} parameters"


# 6: arrays of a fixed length.
def point_6(lines):
    for n, line in enumerate(lines, 1):
        if re.search(r"= \[[^\[\];]*; \w+\]", line):
            yield n, line.strip()


# 7: switches on which step to run.
def point_7(lines):
    for name, at, head, body in functions(lines):
        if re.search(r"match (verb|kind|fields\.kind)\b", body) or re.search(r"keep_(rows|groups)\(part, rules, q", body):
            yield at, "fn " + name
        if name in ("shift", "carry"):
            yield at, "fn " + name


POINTS = {"1": point_1, "3": point_3, "4": point_4, "5": point_5, "6": point_6, "7": point_7}


def main():
    listed = "--list" in sys.argv
    wanted = [a for a in sys.argv[1:] if a != "--list"] or list(POINTS)
    for point in wanted:
        total = 0
        for path in sorted(ROOT.glob("crates/*/src/**/*.rt")):
            for at, what in POINTS[point](code_of(path.read_text())):
                total += 1
                if listed:
                    print(f"{point} {path.relative_to(ROOT / 'crates')}:{at}: {what}")
        print(f"point {point}: {total}")


main()
