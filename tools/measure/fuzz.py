#!/usr/bin/env python3
"""Mutates the scripts of the cases, the examples among them, and runs the program on them for some seconds:
tools/measure/fuzz.py SECONDS [SEED]. Each run must end with a status from 0 to 3 and the streams that
docs/SCRIPT.md promises for it, within 2 s; a script that asks for no room by number must stay within
20 times its size of memory, beside what the program takes for an empty one. Prints what did not, the
runs a second, and how often each status came. Ends with 1 where something did not hold."""

import glob
import os
import random
import re
import resource
import subprocess
import sys
import tempfile
import time

TOP = os.path.dirname(os.path.dirname(os.path.dirname(os.path.abspath(__file__))))
PROGRAM = f"{TOP}/bin/ecow-run"
# Room is asked for by number, or comes of what was made before.
ASKING = re.compile(rb"with_capacity|reserve|from_elem|repeat|replace|clone|from_text|from_bytes|to_ascii")
NUMBERS = [b"0", b"1", b"15", b"16", b"255", b"256", b"9223372036854775807", b"9223372036854775808", b"18446744073709551615", b"18446744073709551616", b"-1", b"-9223372036854775808"]
PIECES = NUMBERS + [b"[", b"]", b"[]", b"..", b">", b"=", b'"', b"\\", b'"\\u{1F600}"', b'""', b"#", b" ", b"\t", b"\r", b"\n", b"\xff", "é😀".encode()]
MESSAGE = re.compile(rb"ecow-run: [a-zA-Z0-9: -]+\n|usage: .*\n")
# Two gigabytes of addresses: a request for more is refused.
LIMIT = 2 << 30


def corpus():
    paths = glob.glob(f"{TOP}/cases/*.eco") + glob.glob(f"{TOP}/examples/*.eco")
    scripts = [open(path, "rb").read() for path in sorted(paths)]
    return [[line for line in script.split(b"\n") if not line.startswith(b"#")] for script in scripts]


def mutated(rng, scripts):
    lines = list(rng.choice(scripts))
    for _ in range(rng.randrange(1, 6)):
        kind, at = rng.randrange(7), rng.randrange(len(lines))
        words = lines[at].split(b" ")
        if kind == 0:
            lines.insert(at, rng.choice(rng.choice(scripts)))
        elif kind == 1 and len(lines) > 1:
            del lines[at]
        elif kind == 2:
            lines[at:at] = lines[at : at + rng.randrange(1, 9)] * rng.randrange(1, 9)
        elif kind == 3:
            words[rng.randrange(len(words))] = rng.choice(PIECES)
            lines[at] = b" ".join(words)
        elif kind == 4:
            cut = rng.randrange(len(lines[at]) + 1)
            lines[at] = lines[at][:cut] + rng.choice(PIECES) + lines[at][cut:]
        elif kind == 5:
            other = rng.choice(rng.choice(scripts)).split(b" ")
            words[rng.randrange(len(words))] = rng.choice(other)
            lines[at] = b" ".join(words)
        else:
            rng.shuffle(lines)
    script = b"\n".join(lines)
    return script[: rng.randrange(len(script) + 1)] if rng.randrange(10) == 0 else script


def run(folder, script, counted):
    """The status, both streams, the seconds and the peak of memory in bytes."""
    path = f"{folder}/script"
    with open(path, "wb") as file:
        file.write(script)
    began = time.time()
    limits = lambda: resource.setrlimit(resource.RLIMIT_AS, (LIMIT, LIMIT))
    with open(f"{folder}/out", "wb") as out, open(f"{folder}/err", "wb") as err:
        child = subprocess.Popen([PROGRAM] + ["--counted"] * counted + [path], stdin=subprocess.DEVNULL, stdout=out, stderr=err, preexec_fn=limits)
        _, status, usage = os.wait4(child.pid, 0)
        child.returncode = os.waitstatus_to_exitcode(status)
    seconds = time.time() - began
    return child.returncode, open(f"{folder}/out", "rb").read(), open(f"{folder}/err", "rb").read(), seconds, usage.ru_maxrss * 1024


def commands_in(script):
    lines = [line.strip(b" \t\r") for line in script.split(b"\n")]
    return sum(1 for line in lines if line and not line.startswith(b"#"))


def fault(script, counted, ended, idle):
    """What a run did not keep to, or None."""
    status, out, err, seconds, memory = ended
    if status == 0:
        lines = commands_in(script) + counted
        if err or out.count(b"\n") != lines or (out and not out.endswith(b"\n")):
            return f"{out.count(10)} lines for {lines}"
    elif status in (1, 2, 3):
        if out or not MESSAGE.fullmatch(err):
            return f"status {status} with {len(out)} bytes of output and {err!r}"
    else:
        return f"status {status}"
    if seconds > 2:
        return f"{seconds:.1f} s"
    if not ASKING.search(script) and memory > idle + 20 * len(script) + (1 << 20):
        return f"{memory} bytes of memory for a script of {len(script)}"
    return None


def main(seconds, seed):
    rng, scripts = random.Random(seed), corpus()
    counts, faults, runs, began = {}, 0, 0, time.time()
    with tempfile.TemporaryDirectory(prefix="fuzz-") as folder:
        idle = run(folder, b"", False)[4]
        while time.time() - began < seconds:
            script, counted = mutated(rng, scripts), rng.randrange(3) == 0
            ended = run(folder, script, counted)
            runs += 1
            counts[ended[0]] = counts.get(ended[0], 0) + 1
            said = fault(script, counted, ended, idle)
            if said:
                faults += 1
                print(f"run {runs} of seed {seed}{' --counted' * counted}: {said}\n{script.decode(errors='replace')}")
    spent = time.time() - began
    print(f"{runs} runs, {runs / spent:.0f} a second, statuses {dict(sorted(counts.items()))}, {faults} faults, seed {seed}")
    return 1 if faults else 0


if __name__ == "__main__":
    sys.exit(main(float(sys.argv[1]), int(sys.argv[2]) if len(sys.argv) > 2 else 1))
