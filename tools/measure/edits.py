#!/usr/bin/env python3
"""Tries the edits that the prover must refuse, those of the gate (crates/NAME/must-fail) and those
beside them (crates/NAME/edits): of the crates that are named, or of all. Works on a copy of the
repository, and takes what `rt ci` proved before. Ends with 1 where an edit is not refused, or can't
be tried."""

import glob
import os
import re
import resource
import shutil
import subprocess
import sys
import tempfile

TOP = os.path.dirname(os.path.dirname(os.path.dirname(os.path.abspath(__file__))))
TIERS = ("must-fail", "edits")


def edits_of(top, crate):
    return sorted(path for tier in TIERS for path in glob.glob(f"{top}/crates/{crate}/{tier}/*.edit"))


def crates_with_edits():
    crates = {os.path.basename(path) for path in glob.glob(f"{TOP}/crates/*")}
    return sorted(crate for crate in crates if edits_of(TOP, crate))


def function_at(path, line):
    """The function that a place of a source file belongs to."""
    with open(path, encoding="utf-8") as source:
        lines = source.read().split("\n")
    named = lambda text: re.search(r"\bfn (\w+)", text)
    if re.match(r"\s*(pub|fn|impl|#|///)", lines[line - 1]):
        for text in lines[line - 1 :]:
            if named(text):
                return named(text)[1]
    for text in reversed(lines[:line]):
        if named(text):
            return named(text)[1]
    return "?"


def goal(folder, said):
    """Which goal of which function refused an edit, as far as the prover's line says it."""
    answer = re.match(r"(?:\./)?proofs/(?:\S+/)?(\S+?)/\w+\.antt:\d+:\d+: error: `([^`]+)`", said)
    if answer:
        return f"{answer[1]} (its proof): {answer[2]}"
    place = re.match(r"(?:note: )?(?:\./)?(src/\S+?):(\d+):\d+: (.*)", said)
    if not place:
        return said
    path, line, text = place[1], int(place[2]), place[3]
    names = re.findall(r"\(`([^`]+)`\)", text)
    return f"{function_at(f'{folder}/{path}', line)} ({path}): {names[0] if names else text}"


def laid_out(copy, crates):
    """Copies the repository, with all edits of the crates where `rt ci` looks for them, and no others."""
    shutil.copytree(TOP, copy, symlinks=True, ignore=shutil.ignore_patterns(".git", "bin", "out"))
    for path in glob.glob(f"{copy}/crates/*/must-fail"):
        if path.split("/")[-2] not in crates:
            shutil.rmtree(path)
    for crate in crates:
        os.makedirs(f"{copy}/crates/{crate}/must-fail", exist_ok=True)
        for path in glob.glob(f"{copy}/crates/{crate}/edits/*.edit"):
            shutil.move(path, f"{copy}/crates/{crate}/must-fail")


def answers(folder, said):
    """What is said of each edit of a crate: whether it was refused by a goal, whether it was refused, and a line to print."""
    for name, text in re.findall(rf"must-fail {os.path.basename(folder)}/(\S+)\.edit: (.*)", said):
        refused = re.match(r"refused, as it must be:? ?(.*)", text)
        if not refused:
            yield False, False, f"  {name}: {text}" if "NOT REFUSED" in text else f"  BAD EDIT {name}: {text}"
        elif refused[1].startswith("(only"):
            yield False, True, f"  BY NAME {name}: {refused[1]}"
        else:
            yield True, True, f"  {name}: {goal(folder, refused[1])}"


def main(names):
    crates = names or crates_with_edits()
    unknown = [crate for crate in crates if not edits_of(TOP, crate)]
    if unknown:
        print(f"no edits: {' '.join(unknown)}")
        return 2
    all_well = True
    with tempfile.TemporaryDirectory(prefix="edits-") as room:
        copy = f"{room}/repository"
        laid_out(copy, crates)
        ran = subprocess.run(["rt", "ci", *crates], cwd=copy, stdout=subprocess.PIPE, stderr=subprocess.STDOUT, text=True, errors="replace")
        for crate in crates:
            found = list(answers(f"{copy}/crates/{crate}", ran.stdout))
            count = len(edits_of(TOP, crate))
            print(f"{crate}: {sum(by_goal for by_goal, _, _ in found)} of {count} refused by a goal")
            print("\n".join(line for _, _, line in found))
            if len(found) != count:
                print(f"  {count - len(found)} were not tried: {ran.stdout[-600:]}")
            all_well = all_well and len(found) == count and all(refused for _, refused, _ in found)
    seconds = resource.getrusage(resource.RUSAGE_CHILDREN)
    print(f"{(seconds.ru_utime + seconds.ru_stime) / 60:.0f} minutes of processors")
    return 0 if all_well else 1


if __name__ == "__main__":
    sys.exit(main(sys.argv[1:]))
