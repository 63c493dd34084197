#!/usr/bin/env python3
"""make.py: write `stdin` and `stdout` beside this file: the worked and the boundary cases of document 01 and the examples, each with the line that the document asks for.

No line here comes from a program: each stands beside its case, or in the example's file, worked out from the document by hand.
"""
import glob
import os

REVERSAL = bytes.fromhex("434E00 434E020001 464E02020201 4244 4F500002 425200475601 4252014D4B01040201 544C000305 4E44")
P10 = bytes.fromhex("464E02020201 4244 475600 4E44")
P14 = bytes.fromhex("464E0000 4244 434C00 475600 4E44")
CELLS = [(1, 5, 65537, 0, 0), (1, 7, 0, 0, 0)]
BAD = "bad input"
ENOUGH = 100000
cases = []


def check(line, *parts):
    cases.append((0, b"".join(parts), line))


def request(file, args=(), cells=(), budget=ENOUGH, counts=None):
    words = [w for cell in cells for w in cell]
    counts = counts or (len(file), len(args), len(cells), budget)
    word = lambda n: n.to_bytes(4, "big")
    return b"".join(map(word, counts)) + file + b"".join(map(word, args)) + b"".join(map(word, words))


def run(line, file, args=(), cells=(), budget=ENOUGH, **more):
    cases.append((1, request(file, args, cells, budget, **more), line))


def raw(line, data):
    cases.append((1, data, line))


def with_byte(file, place, byte):
    return file[:place] + bytes([byte]) + file[place + 1:]


# The records of a rule file.
def cn(*sorts): return b"CN" + bytes([len(sorts), *sorts])
def fn(result, *modes): return b"FN" + bytes([len(modes), *modes, result])
def gv(slot): return b"GV" + bytes([slot])
def at(con): return b"AT" + bytes([con])
def mk(con, credit, *slots): return b"MK" + bytes([con, credit, *slots])
def cl(function, *slots): return b"CL" + bytes([function, *slots])
def tl(function, *slots): return b"TL" + bytes([function, *slots])
def op(slot, *branches): return b"OP" + bytes([slot, len(branches)]) + b"".join(branches)
def lk(slot, *branches): return b"LK" + bytes([slot, len(branches)]) + b"".join(branches)
def br(con, *term): return b"BR" + bytes([con]) + b"".join(term)
def nu(n): return b"NU" + n.to_bytes(2, "big")
def ar(operation, a, b): return b"AR" + bytes([operation, a, b])
def if_(slot, first, second): return b"IF" + bytes([slot]) + first + second
def file_of(heads, *bodies): return b"".join(heads) + b"".join(b"BD" + body for body in bodies) + b"ND"


def listed(n):
    """n cells, one behind the other, the last one's tree the atom 0."""
    return [(1, k % 65536, 65536 + k + 1 if k + 1 < n else 0, 0, 0) for k in range(n)]


# P1 to P14, and P11's start with budget 0.
P13 = with_byte(REVERSAL[:20] + REVERSAL[26:], 19, 1)
check("accepted flat 1 1", REVERSAL)
check("refused 9 at 39", with_byte(REVERSAL, 39, 3))
check("refused 8 at 33", with_byte(REVERSAL, 33, 3))
check("refused 7 at 32", with_byte(REVERSAL, 32, 5))
check("refused 9 at 25", with_byte(REVERSAL, 25, 0))
check("refused 8 at 25", with_byte(REVERSAL, 12, 1))
check("refused 12 at 28", with_byte(REVERSAL, 28, 0))
check("refused 2 at 41", REVERSAL[:-1])
check("refused 2 at 0")
check("refused 6 at 42", REVERSAL, b"\0")
check("refused 11 at 8", P10)
run("0 65537 8 0 1", REVERSAL, (65536, 0), CELLS, 8)
run("32 0 7 23 1", REVERSAL, (65536, 0), CELLS, 7)
run("23 0 0 0 0", REVERSAL, (65536, 65536), CELLS, 8)
check("accepted flat 1 1", P13)
run("31 0 1 16 1", P13, (0, 0))
check("accepted stacked 1", P14)
run("33 0 32 6 32", P14, budget=40)
run("32 0 0 16 1", REVERSAL, (65536, 0), CELLS, 0)
run("9 0 0 39 0", with_byte(REVERSAL, 39, 3), (65536, 0), CELLS, 8)

# Budgets: none, after the file's and the start's refusals; one; the steps of the run; more.
LOOP = file_of([fn(0)], tl(0))
run("9 0 0 39 0", with_byte(REVERSAL, 39, 3), (65536, 0), CELLS, 0)
run("21 0 0 0 0", REVERSAL, (65536,), CELLS, 0)
run("22 0 0 0 0", REVERSAL, (65538, 0), CELLS, 0)
run("23 0 0 0 0", REVERSAL, (65536, 65536), CELLS, 0)
run("32 0 0 16 1", P13, (0, 0), budget=0)
run("32 0 0 6 1", P14, budget=0)
run("32 0 1 29 1", REVERSAL, (65536, 0), CELLS, 1)
run("0 65537 8 0 1", REVERSAL, (65536, 0), CELLS, 2**32 - 1)
check("accepted flat 1 1", LOOP)
run("32 0 0 6 1", LOOP, budget=0)
run("32 0 1 6 1", LOOP, budget=1)
run("32 0 100000 6 1", LOOP, budget=100000)
run("32 0 100001 6 1", LOOP, budget=100001)
run("32 0 31 6 32", P14, budget=31)
run("33 0 32 6 32", P14, budget=32)

# A file of 4,096 bytes (30 functions, 956 numbers), one byte less and one more.
def numbers(count): return b"".join(nu(7 + k) for k in range(count)) + gv(0)
full = file_of([fn(0)] * 30, *[numbers(32)] * 26, *[numbers(31)] * 4)
assert len(full) == 4096
check("accepted flat 1 1", full)
check("refused 2 at 4095", full[:-1])
check("refused 1 at 0", full, b"\0")
check("refused 1 at 0", full * 3)
run("0 7 33 0 1", full)
run("1 0 0 0 0", full + b"\0")

# 64 and 65 constructors.
def seven(slot=0): return nu(7) + gv(slot)
check("accepted flat 1 1", file_of([cn()] * 64 + [fn(0)], seven()))
check("refused 5 at 192", file_of([cn()] * 65 + [fn(0)], seven()))
run("0 63 3 0 1", file_of([cn()] * 64 + [fn(1, 2)], op(0, br(62, at(62), gv(1)), br(63, at(63), gv(1)))), (63,))
run("22 0 0 0 0", file_of([cn()] * 64 + [fn(1, 2)], op(0, br(62, at(62), gv(1)), br(63, at(63), gv(1)))), (64,))

# 64 branches in a list, and 65, which no record can say.
every = [br(k, seven(1)) for k in range(64)]
check("accepted flat 1 1", file_of([cn()] * 64 + [fn(0, 2)], op(0, *every)))
check("refused 4 at 202", file_of([cn()] * 64 + [fn(0, 2)], op(0, *every, every[0])))
check("refused 4 at 13", file_of([cn()] + [fn(0, 2)], op(0)))

# 32 and 33 functions, each calling the next.
chain = [cl(k + 1) + gv(0) for k in range(31)] + [seven()]
check("accepted flat 32 32", file_of([fn(0)] * 32, *chain))
run("0 7 64 0 32", file_of([fn(0)] * 32, *chain))
check("refused 5 at 128", file_of([fn(0)] * 33, *chain, seven()))
check("accepted flat 1 32", file_of([fn(0)] * 32, *[tl(k + 1) for k in range(31)], seven()))

# 32 and 33 slots: bound by numbers, and with eight parameters.
check("accepted flat 1 1", file_of([fn(0)], numbers(32)))
run("0 7 33 0 1", file_of([fn(0)], numbers(32)))
check("refused 5 at 134", file_of([fn(0)], numbers(33)))
check("accepted flat 1 1", file_of([fn(0, *[0] * 8)], numbers(24)))
check("refused 5 at 110", file_of([fn(0, *[0] * 8)], numbers(25)))

# 64 and 65 nodes on a path: tests, one in the other.
def tests(count): return if_(0, gv(0), tests(count - 1)) if count else gv(0)
check("accepted flat 1 1", file_of([fn(0, 0)], tests(63)))
run("0 0 64 0 1", file_of([fn(0, 0)], tests(63)), (0,))
run("0 5 2 0 1", file_of([fn(0, 0)], tests(63)), (5,))
check("refused 5 at 388", file_of([fn(0, 0)], tests(64)))

# 1,024 cells, one more, and one more than a request may have.
run("0 66559 3074 0 1", REVERSAL, (65536, 0), listed(1024))
run("0 66559 3074 0 1", REVERSAL, (65536, 0), listed(1024), 3074)
run("32 0 3073 23 1", REVERSAL, (65536, 0), listed(1024), 3073)
run("20 0 0 0 0", REVERSAL, (65536, 0), listed(1025))
raw(BAD, request(REVERSAL, (65536, 0), listed(1026)))

# 7, 8 and 9 arguments, one more than a request may have, and a ninth parameter, which no record can say.
EIGHT = file_of([fn(0, *[0] * 8)], gv(7))
run("0 8 1 0 1", EIGHT, range(1, 9))
run("21 0 0 0 0", EIGHT, range(1, 8))
run("21 0 0 0 0", EIGHT, range(1, 10))
raw(BAD, request(EIGHT, range(1, 11)))
run("22 0 0 0 0", EIGHT, (65536,) * 8)
run("0 65535 1 0 1", EIGHT, (65535,) * 8)
check("refused 4 at 2", file_of([fn(0, *[0] * 9)], gv(7)))

# Inputs shorter or longer than they say, and counts at their limits.
whole = request(REVERSAL, (65536, 0), CELLS, 8)
raw(BAD, b"")
raw(BAD, bytes(15))
raw("2 0 0 0 0", bytes(16))
raw(BAD, bytes(17))
raw(BAD, whole[:-1])
raw(BAD, whole + b"\0")
raw("1 0 0 0 0", request(full + b"\0", (0,) * 9, [(0,) * 5] * 1025, 1))
raw(BAD, request(full + bytes(2)))
raw(BAD, request(b"", counts=(0, 0, 2**32 - 1, 0)))
raw(BAD, request(b"", counts=(2**32 - 16, 4, 0, 0)))

# The start: a malformed argument or field, a cell named twice, a cell that reaches itself.
LENT = file_of([cn(), cn(0, 1), fn(0, 1)], lk(0, br(0, seven(1)), br(1, tl(0, 2))))
BOTH = file_of([cn(), cn(0, 1), fn(0, 1, 2)], op(1, br(0, seven(2)), br(1, tl(0, 0, 3))))
run("0 7 7 0 1", LENT, (65536,), CELLS)
run("22 0 0 0 0", LENT, (1,), CELLS)
run("22 0 0 0 0", LENT, (65538,), CELLS)
run("22 0 0 0 0", LENT, (65536,), [(1, 65536, 0, 0, 0)])
run("22 0 0 0 0", LENT, (65536,), [(0, 5, 0, 0, 0)])
run("0 7 5 0 1", LENT, (65536,), [(1, 5, 0, 99, 99), (9, 9, 9, 9, 9)])
run("24 0 0 0 0", LENT, (65536,), [(1, 5, 65536, 0, 0)])
check("refused 11 at 33", BOTH)

# The wrong turns of document 01.
HANDS = file_of([cn(), fn(0, 2), fn(0, 1, 2)], cl(1, 0, 0) + gv(1), op(1, br(0, seven(2))))
check("refused 9 at 20", HANDS)
check("refused 8 at 12", file_of([cn(), fn(0, 2)], lk(0, br(0, seven(1)))))
check("accepted stacked 2", file_of([fn(0), fn(0)], cl(1) + gv(0), tl(0)))
SHARED = file_of([cn(), cn(0, 1), fn(1, 1, 2)], gv(1))
run("0 65536 1 0 1", SHARED, (0, 65536), CELLS)
run("0 65537 1 0 1", SHARED, (0, 65537), CELLS)
run("23 0 0 0 0", SHARED, (65536, 65537), CELLS)
check("accepted flat 1 1", file_of([cn(), cn(0), fn(1, 2, 2)], op(0, br(0, gv(1)), br(1, mk(1, 3, 2), op(1, br(0, gv(4)))))))

# A mark not allowed, and arithmetic.
check("refused 3 at 0", b"XX")
check("refused 3 at 0", b"ND")
run("34 0 3 14 1", file_of([fn(0)], nu(1) + nu(3) + ar(1, 0, 1) + gv(2)))
run("34 0 3 14 1", file_of([fn(0)], nu(65535) + nu(2) + ar(0, 0, 1) + gv(2)))
run("0 1 4 0 1", file_of([fn(0)], nu(3) + nu(4) + ar(2, 0, 1) + gv(2)))
run("0 0 4 0 1", file_of([fn(0)], nu(3) + nu(4) + ar(3, 0, 1) + gv(2)))

# The ends of the range: a sum over 65,535 and a difference below 0 end the run, and so in a called function.
def operating(operation): return file_of([fn(0, 0, 0)], ar(operation, 0, 1) + gv(2))
run("0 65535 2 0 1", operating(0), (65535, 0), budget=8)
run("34 0 1 8 1", operating(0), (65535, 1), budget=8)
run("0 0 2 0 1", operating(1), (0, 0), budget=8)
run("34 0 1 8 1", operating(1), (0, 1), budget=8)
run("0 0 2 0 1", operating(1), (5, 5), budget=8)
run("34 0 1 8 1", operating(1), (0, 65535), budget=8)
run("34 0 1 8 1", operating(0), (65535, 65535), budget=8)
run("0 1 2 0 1", operating(2), (0, 65535), budget=8)
run("0 1 2 0 1", operating(3), (65535, 65535), budget=8)
run("32 0 1 13 1", operating(0), (65535, 0), budget=1)
run("34 0 1 8 1", operating(0), (65535, 1), budget=1)
run("34 0 2 24 2", file_of([fn(0, 0, 0), fn(0, 0, 0)], cl(1, 0, 1) + gv(2), ar(1, 0, 1) + gv(2)), (0, 1), budget=8)

def example(path):
    """The verdict and the runs of an example, from the file with its starts and the one with its bytes."""
    with open(os.path.splitext(path)[0] + ".hex") as text:
        file = bytes.fromhex(text.read())
    start = {}
    for line in open(path):
        word, _, rest = line.strip().partition(" ")
        if word == "verdict":
            check(rest, file)
        elif word == "run":
            start = {"args": [], "cells": []}
        elif word == "arguments":
            start["args"] = [int(n) for n in rest.split()]
        elif word == "cell":
            start["cells"].append([int(n) for n in rest.split()])
        elif word == "budget":
            start["budget"] = int(rest)
        elif word == "answer":
            run(rest, file, **start)


# The examples.
here = os.path.dirname(os.path.abspath(__file__))
for path in sorted(glob.glob(os.path.join(here, "..", "..", "examples", "*.run"))):
    example(path)

with open(os.path.join(here, "stdin"), "wb") as out:
    for kind, data, _ in cases:
        out.write(bytes([kind]) + len(data).to_bytes(3, "big") + data)
with open(os.path.join(here, "stdout"), "w") as out:
    out.write("".join(line + "\n" for _, _, line in cases))
