#!/usr/bin/env python3
"""Counts, in crates/*/src, the places that docs/DESIGN-PASS.md speaks of: tools/places.py [FOLDER] [--list]. With --list each place is named."""
import collections
import glob
import re
import sys

folder = next((a for a in sys.argv[1:] if not a.startswith("--")), ".")
listed = "--list" in sys.argv
files = {f[len(folder) + 1 :]: open(f).read() for f in sorted(glob.glob(folder + "/crates/*/src/*.rt"))}

# The lines of a form, with the point of the page that it belongs to.
MARKS = "CN|FN|BD|ND|GV|AT|MK|CL|TL|OP|LK|BR|NU|AR|IF|OTHER|EARLY"
LINES = [
    ("1", "an own enum's case for a refusal, or for going on", r"^\s*(Next\(usize\)|Fault\(u32, usize\)|Refused\(u32(, u32)?\)),"),
    ("1", "a field or parameter `number: u32`", r"^\s*(pub )?number: u32,|[(, ]number: u32"),
    ("1", "a number for a fault, a kind or an end, made or tested", r"number [!=]= \w|\bBAD\b|GOING|=> (3[1-4]|8|9|10|11|12),|return (7|8|9|10|11|12|2[0-4]);|(fault|refused|finish|Fault)\((s, )?\d+"),
    ("1", "a function that answers a refusal's number, a place or 0", r"fn (test|repeats|start_answer|find_branch|known_branch)\("),
    ("1", "a constant number for a mark, a mode or a state", r"^\s*(pub )?const (" + MARKS + r"|NUMBER|LENT|OWNED|GOING|BAD|UNDECLARED): (usize|u32)"),
    ("1", "a parameter that is a number for a mark, a mode, a sort or a yes", r"\b(m|mark|mode|sort|credit|scale|kind): (usize|u32|u8)\b"),
    ("3", "a loop with `while`", r"^\s*while "),
    ("3", "an index counted by hand", r"\b\w+ \+= [13];|\b\w+ -= 1;"),
    ("4", "a function that only converts", r"fn (wide|wide_word|pair)\("),
    ("4", "an arm that says true or false", r"=> (true|false),$"),
    ("4", "a function that only compares", r"fn (same|less|is_\w+|in_table)\("),
    ("4", "printing by hand", r"fn (say|say_number|say_right|say_meaning|put_number|put_field|put_text)\b|=> say\("),
    ("5", "the table of declarations as a bare array", r"decl: &('a )?(mut )?\[u32; (128|Table::WORDS)\]"),
    ("7", "a second text of a step, or of what it is made of", r"fn known_(step|take|choose|branch)\("),
]

# Functions by the names of their parameters.
TOGETHER = [
    ("5", "the file and its table side by side", lambda p: "file" in p and ("decl" in p or "table" in p)),
    ("5", "codes, store and work area of a walk side by side", lambda p: {"codes", "store"} <= p and len(p) > 3),
    ("5", "the first fault's number and place, lent side by side", lambda p: {"fault", "place"} <= p and len(p) > 2),
    ("5", "five parameters or more", lambda p: len(p) >= 5),
    ("6", "a buffer with a length or a place beside it", lambda p: {"slots", "bound"} <= p or {"out", "at"} <= p or {"words", "count"} <= p or {"values", "n"} <= p),
]


def functions(text):
    for m in re.finditer(r"\bfn (\w+)(?:<[^>]*>)?\(([^{]*?)\)(?: ->|\n| \{)", text, re.S):
        names = set(re.findall(r"(\w+):", m.group(2)))
        yield m.group(1), names | ({"self"} if re.search(r"\bself\b", m.group(2)) else set()), text[: m.start()].count("\n") + 1


def say(point, name, found):
    print(f"{point:>5}  {len(found):>6}  {name}")
    if listed:
        for place in found:
            print(f"               {place}")


print("point  places  form")
for point, name, pattern in LINES:
    say(point, name, [f"{f}:{i + 1}: {line.strip()}" for f, text in files.items() for i, line in enumerate(text.split("\n")) if re.search(pattern, line) and not line.lstrip().startswith(("//", "ghost", "requires", "ensures"))])
for point, name, test in TOGETHER:
    say(point, name, [f"{f}:{i}: {n}" for f, text in files.items() for n, p, i in functions(text) if test(p)])

names = collections.defaultdict(list)
for f, text in files.items():
    for n in re.findall(r"^\s*(?:pub(?:\(crate\))? )?(?:extern \"C\" )?fn (\w+)", text, re.M):
        if n != "main":
            names[n].append(f)
say("2", "functions that share their name with another", [f"{n}: {', '.join(fs)}" for n, fs in sorted(names.items()) if len(fs) > 1 for _ in fs])

facts = collections.Counter(fact.strip("() ") for text in files.values() for clause in re.findall(r"^\s*requires (?:\w+ )?\{ (.*) \}$", text, re.M) for fact in clause.split(" × "))
say("5", "facts that three or more contracts ask, by the places where they stand", [f"{fact}" for fact, c in facts.most_common() if c >= 3 for _ in range(c)])

proofs = sorted(glob.glob(folder + "/crates/*/proofs/**/*.antt", recursive=True))
print(f"    8  {sum(len(open(f).read().splitlines()) for f in proofs):>6}  lines of proofs, in {len(proofs)} files")
