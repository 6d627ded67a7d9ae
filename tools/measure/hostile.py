#!/usr/bin/env python3
"""Runs the program on what no test in Rattle can do:
tools/measure/hostile.py [--program FILE] [--peer "COMMAND"] [PART ..], where PART is one of

  memory   each request for memory refused in turn, over the examples and the short cases (needs a C compiler)
  ends     files that are large or can't be read, outputs that fail, and other words than a use of the program
  sizes    scripts of 16 MiB, timed, and beside them those of the peer: a command that reads the same scripts
           and takes [--counted] FILE behind its words
  leaks    the examples and all cases under valgrind (needs valgrind)

All but the last, where none is named. The program is bin/ecow-run. Each run must end as docs/SCRIPT.md says,
and none may take more than twice the peer's time or memory. Prints what did not, and how much was run. Ends with 1
where something did not hold."""

import argparse
import filecmp
import glob
import itertools
import os
import subprocess
import sys
import tempfile
import time

TOP = os.path.dirname(os.path.dirname(os.path.dirname(os.path.abspath(__file__))))
# The most bytes that a script has.
LIMIT = 16777216
# Cases below this size run with each request refused.
SHORT = 3000
# How many names that collide are made: finding them takes a while.
COLLIDING = 50000
# How many names are numbered for those whose numbers collide.
NUMBERED = 585000
# How many times the peer's time and memory a script may take.
MOST = 2
# How often a large script is run; the least of each measure counts.
TIMES = 3
NOBODY = 65534
USAGE = b"usage: ecow-run [--counted] FILE\n"
MESSAGES = (b"ecow-run: memory\n", b"ecow-run: file\n")
LACKING = b"refused memory\n"
# What the library that refuses requests says at the end of a run that made fewer.
FEWER = b"fewer requests\n"


def scripts(limit):
    """The examples and the cases of fewer bytes than the limit."""
    paths = glob.glob(f"{TOP}/cases/*.eco") + glob.glob(f"{TOP}/examples/*.eco")
    return [path for path in sorted(paths) if os.path.getsize(path) < limit]


def ended(words, **options):
    """The status and both streams of a run; below 0 is the signal that ended it."""
    run = subprocess.run(words, stdin=subprocess.DEVNULL, stdout=subprocess.PIPE, stderr=subprocess.PIPE, timeout=120, **options)
    return run.returncode, run.stdout, run.stderr


def said(end):
    """What an end was, in a line."""
    return f"status {end[0]}, {len(end[1])} bytes of output, {end[2]!r}"


# Each request for memory, refused in turn.


def library(folder):
    """Builds what refuses the request whose number stands in REFUSE."""
    path = f"{folder}/refuse.so"
    subprocess.run(["cc", "-O2", "-shared", "-fPIC", "-o", path, f"{TOP}/tools/gate/refuse.c", "-ldl"], check=True)
    return path


def answers_hold(answers, whole):
    """Whether there are as many answers as without a refusal, and the same up to the first that lacks memory."""
    lines, wanted = answers.splitlines(True), whole.splitlines(True)
    alike = lines.index(LACKING) if LACKING in lines else len(lines)
    return len(lines) == len(wanted) and lines[:alike] == wanted[:alike]


def refusal_holds(end, whole):
    """Whether a run in which one request was refused ended as it may; `whole` is the run without."""
    status, out, err = end
    if status == 3:
        return not out and err in MESSAGES
    return status == whole[0] and err == whole[2] and answers_hold(out, whole[1])


def refused_in_turn(refuse, words):
    """How many requests a run makes, and the ends that don't hold."""
    whole, faults, number = ended(words), [], 1
    while True:
        end = ended(words, env={**os.environ, "REFUSE": str(number), "LD_PRELOAD": refuse})
        if end[2].endswith(FEWER):
            last = (end[0], end[1], end[2][: -len(FEWER)])
            return number - 1, faults + [f"none refused: {said(end)}"] * (last != whole)
        if not refusal_holds(end, whole):
            faults.append(f"request {number}: {said(end)}")
        number += 1


def memory(program, _peer):
    runs, requests, faults, began = 0, 0, 0, time.time()
    with tempfile.TemporaryDirectory(prefix="hostile-") as folder:
        refuse = library(folder)
        for path in scripts(SHORT):
            for flags in [[], ["--counted"]]:
                made, wrong = refused_in_turn(refuse, [program, *flags, path])
                runs, requests, faults = runs + 1, requests + made, faults + len(wrong)
                for fault in wrong:
                    print(f"{' '.join(flags + [os.path.basename(path)])}: {fault}")
    print(f"memory: {runs} scripts and stores, {requests} requests refused in turn, {time.time() - began:.0f} s, {faults} faults")
    return faults


# How the program ends where its file, its output or its words are odd.


def hashes(path, size):
    """A script that is one long comment."""
    with open(path, "wb") as file:
        for _ in range(size // 65536):
            file.write(b"#" * 65536)
        file.write(b"#" * (size % 65536))
    return path


def file_ends(program, folder):
    """Files at the limit of size, and what is no file that can be read."""
    locked = hashes(f"{folder}/locked", 1)
    os.chmod(folder, 0o755)
    os.chmod(locked, 0)
    another = {"user": NOBODY} if os.geteuid() == 0 else {}
    yield "a file of 16777216 bytes", ended([program, hashes(f"{folder}/largest", LIMIT)]), (0, b"", b"")
    yield "one byte more", ended([program, hashes(f"{folder}/larger", LIMIT + 1)]), (3, b"", b"ecow-run: too large\n")
    yield "a file without an end", ended([program, "/dev/zero"]), (3, b"", b"ecow-run: too large\n")
    yield "an empty file", ended([program, "/dev/null"]), (0, b"", b"")
    yield "an empty file, counted", ended([program, "--counted", "/dev/null"]), (0, b"blocks 0 copied 0 moved 0\n", b"")
    yield "a folder", ended([program, folder]), (3, b"", b"ecow-run: file\n")
    yield "a missing file", ended([program, f"{folder}/missing"]), (3, b"", b"ecow-run: file\n")
    yield "a file that may not be read", ended([program, locked], **another), (3, b"", b"ecow-run: file\n")
    yield "no name", ended([program, ""]), (3, b"", b"ecow-run: file\n")


def output_end(words, output, **options):
    """The end of a run whose output goes elsewhere."""
    run = subprocess.run(words, stdin=subprocess.DEVNULL, stdout=output, stderr=subprocess.PIPE, timeout=120, **options)
    return run.returncode, b"", run.stderr


def output_ends(program, _folder):
    """Outputs that take nothing."""
    words, wanted = [program, f"{TOP}/examples/first.eco"], (3, b"", b"ecow-run: output\n")
    yield "a closed output", output_end(words, None, preexec_fn=lambda: os.close(1)), wanted
    with open("/dev/full", "wb") as full:
        yield "a full device", output_end(words, full), wanted
    reader, writer = os.pipe()
    os.close(reader)
    yield "a pipe without a reader", output_end(words, writer), wanted
    os.close(writer)


def word_ends(program, _folder):
    """Words that are no use of the program: too few, too many, and one that is no text."""
    file = f"{TOP}/examples/first.eco"
    for words in [[], ["--counted"], [file, "--counted"], [file, file], ["--counted", file, file], [file, file, file], [b"\xff", file]]:
        yield f"the words {words}", ended([program, *words]), (2, b"", USAGE)
    for words in [[b"\xff"], ["--counted", b"\xff"], ["x" * 5000]]:
        yield f"the words {words}", ended([program, *words]), (3, b"", b"ecow-run: file\n")


def ends(program, _peer):
    runs, faults = 0, 0
    with tempfile.TemporaryDirectory(prefix="hostile-") as folder:
        for part in [file_ends, output_ends, word_ends]:
            for what, end, wanted in part(program, folder):
                runs += 1
                if end != wanted:
                    faults += 1
                    print(f"{what}: {said(end)}")
    print(f"ends: {runs} runs, {faults} faults")
    return faults


# Scripts as large as may be.


def pushes():
    yield b"vec new a\n"
    while True:
        yield b"vec push a 123456\n"


def clones():
    yield b"vec from_list a [1,2,3]\n"
    number = 0
    while True:
        number += 1
        yield b"vec clone a b%d\n" % number


def contents():
    yield b"vec from_list a [1,2,3,4,5,6,7,8,9]\n"
    while True:
        yield b"vec contents a\n"


def one_list():
    yield b"vec from_list a [1"
    while True:
        yield b",123456"


def one_text():
    yield b'text from_str t "'
    while True:
        yield "aé€😀".encode()


def many_names():
    number = 0
    while True:
        number += 1
        yield b"vec new abcdefgh%d\n" % number


def copies():
    """Each clone is written to."""
    yield b"vec from_list a [1,2,3]\n"
    number = 0
    while True:
        number += 1
        yield b"vec clone a b%d\nvec push b%d 4\n" % (number, number)


def place(key, size, places):
    """Where std's hash with its fixed seed puts a number of so many bytes. What lies close together there is found
    one after another."""
    product = (0x243F6A8885A308D3 ^ key) * (0x9E3779B97F4A7C15 ^ 2 * size)
    hashed = product % 2**64 ^ product >> 64
    return (hashed ^ hashed >> 32) % places


def colliding_names():
    """Names of seven letters that lie close together, packed into numbers with their length before them."""
    made = 0
    for letters in itertools.product(b"abcdefghijklmnopqrstuvwxyz", repeat=7):
        if place(int.from_bytes(bytes([7, *letters]), "big"), 8, 8192) < 128:
            made += 1
            yield b"vec new %s\n" % bytes(letters)
        if made == COLLIDING:
            return


def letters_of(number):
    """The name of five letters that a number stands for."""
    return bytes(97 + number // 26**at % 26 for at in range(5))


def colliding_numbers():
    """Names are numbered as they come. Of many that name nothing, those whose numbers std's hash puts close together
    are made, and the last of them asked for again and again."""
    for number in range(0, NUMBERED, 2):
        yield b"vec clone %s %s\n" % (letters_of(number), letters_of(number + 1))
    last = b""
    for number in range(NUMBERED):
        if place(number | number << 32, 4, 16384) < 4096:
            last = letters_of(number)
            yield b"vec new %s\n" % last
    while True:
        yield b"vec len %s\n" % last


# Of each large script its name, its flags, its pieces, and what its last line ends with.
LARGE = [
    ("pushes to one list", [], pushes, b""),
    ("clones of one list", [], clones, b""),
    ("contents of one list", [], contents, b""),
    ("one long list", [], one_list, b"]\nvec len a\n"),
    ("one long text", [], one_text, b'"\ntext len t\n'),
    ("pushes, counted", ["--counted"], pushes, b""),
    ("clones, counted", ["--counted"], clones, b""),
    ("many long names", [], many_names, b""),
    ("clones that are written to", [], copies, b""),
    ("clones that are written to, counted", ["--counted"], copies, b""),
    ("names that collide", [], colliding_names, b""),
    ("numbers of names that collide", [], colliding_numbers, b""),
]


def large_script(path, pieces, end):
    """As many whole pieces as fit within the limit, and the end."""
    size = len(end)
    with open(path, "wb") as file:
        for piece in pieces():
            size += len(piece)
            if size > LIMIT:
                break
            file.write(piece)
        file.write(end)


def measured(words, out):
    """Seconds, seconds of the processor, MiB at the peak, and whether the run was done; the answers go to a file."""
    with open(out, "wb") as answers:
        began = time.time()
        child = subprocess.Popen(words, stdin=subprocess.DEVNULL, stdout=answers)
        _, status, usage = os.wait4(child.pid, 0)
        seconds = time.time() - began
    child.returncode = os.waitstatus_to_exitcode(status)
    return [seconds, usage.ru_utime + usage.ru_stime, usage.ru_maxrss / 1024], child.returncode == 0


def least(commands, outs):
    """For each command the least of each measure, and whether all its runs were done. They take turns, so that
    what else the machine does meets all of them."""
    rounds = [[measured(words, out) for words, out in zip(commands, outs)] for _ in range(TIMES)]
    return [([min(measures) for measures in zip(*(run[0] for run in runs))], all(run[1] for run in runs)) for runs in zip(*rounds)]


def row(name, cells):
    print(f"| {name} | " + " | ".join(cells) + " |")


def figures(measures):
    return [f"{measures[0]:.2f}", f"{measures[1]:.2f}", f"{measures[2]:.0f}"]


def compared(name, flags, folder, program, peer):
    """What doesn't hold of one large script; prints its row."""
    words = [*flags, f"{folder}/script"]
    commands = [[program, *words]] + ([[*peer, *words]] if peer else [])
    (ours, done), *others = least(commands, [f"{folder}/ours", f"{folder}/theirs"])
    faults = [] if done else ["did not end with status 0"]
    if not others:
        row(name, figures(ours))
        return faults
    theirs, done = others[0]
    ratios = [one / max(other, 0.001) for one, other in zip(ours, theirs)]
    row(name, figures(ours) + figures(theirs) + [f"{ratio:.2f}" for ratio in ratios])
    if not done or not filecmp.cmp(f"{folder}/ours", f"{folder}/theirs", shallow=False):
        faults.append("other answers than the peer's")
    for what, ratio in zip(["time", "processor time", "memory"], ratios):
        if ratio > MOST:
            faults.append(f"{ratio:.2f} times the peer's {what}")
    return faults


def sizes(program, peer):
    heads = ["s", "s of processor", "MiB"]
    row("script", heads + ([f"peer's {head}" for head in heads] + [f"ratio of {head}" for head in heads] if peer else []))
    row("---", ["---"] * (9 if peer else 3))
    found = []
    with tempfile.TemporaryDirectory(prefix="hostile-") as folder:
        for name, flags, pieces, end in LARGE:
            large_script(f"{folder}/script", pieces, end)
            found += [f"{name}: {fault}" for fault in compared(name, flags, folder, program, peer)]
    for fault in found:
        print(fault)
    print(f"sizes: {len(LARGE)} scripts, the least of {TIMES} runs, {len(found)} faults")
    return len(found)


# Reads and writes past blocks, and blocks that are never given back.


def leaks(program, _peer):
    runs, faults, began = 0, 0, time.time()
    watched = ["valgrind", "--error-exitcode=9", "--leak-check=full", "-q"]
    for path in scripts(LIMIT):
        for flags in [[], ["--counted"]]:
            words = [program, *flags, path]
            runs += 1
            end = ended(watched + words)
            if end != ended(words):
                faults += 1
                print(f"{' '.join(flags + [os.path.basename(path)])}: {said(end)}")
    print(f"leaks: {runs} runs, {time.time() - began:.0f} s, {faults} faults")
    return faults


PARTS = {"memory": memory, "ends": ends, "sizes": sizes, "leaks": leaks}


def main():
    words = argparse.ArgumentParser(description=__doc__, formatter_class=argparse.RawDescriptionHelpFormatter)
    words.add_argument("--program", default=f"{TOP}/bin/ecow-run")
    words.add_argument("--peer", default="")
    words.add_argument("parts", nargs="*", metavar="PART", choices=[[], *PARTS])
    asked = words.parse_args()
    peer = asked.peer.split()
    faults = [PARTS[part](asked.program, peer) for part in asked.parts or ["sizes", "memory", "ends"]]
    return 1 if any(faults) else 0


if __name__ == "__main__":
    sys.exit(main())
