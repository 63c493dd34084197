#!/usr/bin/env python3
"""stack.py CHECK_PROGRAM RUN_PROGRAM: the least stack limit under which each program still answers, on a small file and on the deepest accepted ones.

A deepest file has 4,096 bytes and 64 nodes on a path, and holds, in a branch that the run passes over, as many branches open at once as fit: once with lists of up to 64, once with the fewest constructors that fill the file, which leaves the most room.
The limits are those of `ulimit -s`, in kilobytes, to the page. The frames are read from the running program by objdump: a frame is the return address, the registers kept, and what a function takes for itself."""
import re
import resource
import subprocess
import sys

GIVE = b"GV\x00"
NODES = 64


def look(terms):
    """LK on the lent slot, with these terms for the constructors from 0 on."""
    return b"LK\x01" + bytes([len(terms)]) + b"".join(b"BR" + bytes([c]) + term for c, term in enumerate(terms))


def whole(constructors, inner):
    """A file whose function 0 looks at its tree: the first branch holds the term, the second one gives a number."""
    return b"CN\x00" * constructors + b"FN\x02\x00\x01\x00BD" + look([inner, GIVE]) + b"ND"


def deepest(constructors):
    """The file, and how many branches are open at once: every node lies in the last branch of the list above it, and the lists are filled from the outside in."""
    lists = [1] * (NODES - 2)
    room = 4096 - len(whole(constructors, GIVE)) - 7 * len(lists)
    for i in range(len(lists)):
        more = min(constructors - 1, room // 6)
        lists[i] += more
        room -= 6 * more
    term = GIVE
    for n in reversed(lists):
        term = look([GIVE] * (n - 1) + [term])
    return whole(constructors, term), 1 + sum(lists)


def request(file):
    """A run of function 0 on the number 7 and the atom 1, without cells, with budget 1,000."""
    return b"".join(n.to_bytes(4, "big") for n in (len(file), 2, 0, 1000)) + file + b"".join(n.to_bytes(4, "big") for n in (7, 1))


def answer(program, given, kilobytes):
    """What the program prints under this limit; None where it does not end well."""
    def limit():
        resource.setrlimit(resource.RLIMIT_STACK, (kilobytes * 1024, kilobytes * 1024))
    try:
        ran = subprocess.run([program], input=given, capture_output=True, preexec_fn=limit, env={})
    except (OSError, subprocess.SubprocessError):
        return None
    return ran.stdout if ran.returncode == 0 else None


def least(program, given):
    """The least limit, in kilobytes, under which the program prints what it prints under 64 megabytes, in 32 runs of 32: the system begins a stack at a place by chance."""
    wanted = answer(program, given, 65536)
    low, high = 0, 65536
    while 4 < high - low:
        middle = (low + high) // 8 * 4
        if all(answer(program, given, middle) == wanted for _ in range(32)):
            high = middle
        else:
            low = middle
    return high, wanted.decode().strip()


def frames(program):
    """The frame of each function of the checker and the machine that stands by itself in the program."""
    text = subprocess.run(["objdump", "-d", "-C", "--no-show-raw-insn", program], capture_output=True).stdout.decode()
    for block in text.split("\n\n"):
        head = re.match(r"[0-9a-f]+ <((?:checker|machine)::[\w:]+)>:", block)
        if head:
            body = re.split(r"\n.*\bcall\b", block)[0]
            pushed = len(set(re.findall(r"\bpush +(%r\w+)", body)))
            taken = sum(int(n, 16) for n in re.findall(r"sub +\$0x([0-9a-f]+),%rsp", body))
            below = max((int(n, 16) for n in re.findall(r"-0x([0-9a-f]+)\(%rsp", block)), default=0)
            yield head.group(1), 8 + 8 * pushed + taken + below


def main():
    check, run = sys.argv[1:3]
    fewest = next(c for c in range(2, 65) if 4090 < len(deepest(c)[0]))
    files = [("small", whole(2, GIVE), 1)]
    files += [("lists of up to %d" % c,) + deepest(c) for c in (64, fewest)]
    for name, file, branches in files:
        for program, given in ((check, file), (run, request(file))):
            kilobytes, line = least(program, given)
            print("%-18s %5d bytes %4d branches open  %-12s %5d KB   %s" % (name, len(file), branches, program.split("/")[-1], kilobytes, line))
    for name, size in frames(run):
        print("frame of %-38s %5d bytes" % (name, size))


main()
