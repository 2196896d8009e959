#!/usr/bin/env python3
"""Plants bugs one at a time, checks the crate, and prints which of them the proofs let pass.

    tools/plant.py [CRATE..]        of these crates, or of all that have a list

The list of a crate is tools/bugs/CRATE.txt. It has the name of a file below the crate, and then for each bug in
that file a line

    OLD ==> NEW

where OLD stands once in the file. A bug that changes nothing that a caller can see stands as

    equivalent: OLD ==> NEW

below a line `# REASON`. The file is put back after each check. A survivor is a bug with which the crate is still
proved, still passes its tests and, if it is a program, still prints its file stdout of its file stdin; of an
equivalent one it is said whether it is so, and it counts in neither sum. The environment variable RT names the
command that checks, if not rt.
"""
import glob
import os
import subprocess
import sys
import time

LISTS = os.path.join(os.path.dirname(__file__), "bugs")
RT = os.environ.get("RT", "rt")
EQUIVALENT = "equivalent: "


def bugs_of(crate):
    """The bugs of a crate: the file, the text that stands there, the text that is planted, whether it is one."""
    path = None
    for line in open(os.path.join(LISTS, crate + ".txt"), encoding="utf-8").read().splitlines():
        if not line or line.startswith("#"):
            continue
        if " ==> " not in line:
            path = "crates/%s/%s" % (crate, line)
            continue
        is_bug = not line.startswith(EQUIVALENT)
        old, new = (line if is_bug else line[len(EQUIVALENT):]).split(" ==> ")
        yield path, old, new, is_bug


def first_error(text):
    for line in text.splitlines():
        if "error" in line or "not proved" in line or "no proof" in line:
            return line.strip()[:160]
    return "?"


def prove(folder):
    """Whether the crate in a folder is proved, and what the check said."""
    r = subprocess.run([RT, "check"], cwd=folder, capture_output=True, text=True)
    text = r.stdout + r.stderr
    verdicts = [line for line in text.splitlines() if line.startswith("logic=")]
    return bool(verdicts) and verdicts[-1].startswith("logic=proved"), text


def stored(path):
    """The bytes of a file, none where it is not there."""
    return open(path, "rb").read() if os.path.exists(path) else b""


def ran(folder, *flags, given=b""):
    """What `rt try` says of a program or of tests: compiled with checks, and the interpreter ends at its first step."""
    r = subprocess.run([RT, "try", *flags, "--steps", "1", "--seconds", "600"], cwd=folder, capture_output=True, input=given)
    if b"run=ended" not in r.stdout + r.stderr:
        raise RuntimeError("%s: rt try gave no answer" % folder)
    return r


def prints_as_stored(folder):
    """Whether the program in a folder prints its file stdout of its file stdin; a library prints nothing."""
    if not os.path.exists(folder + "/src/main.rt"):
        return True
    return ran(folder, given=stored(folder + "/stdin")).stdout == stored(folder + "/stdout")


def passes_its_tests(folder):
    has_tests = any("#[test]" in open(file, encoding="utf-8").read() for file in glob.glob(folder + "/src/**/*.rt", recursive=True))
    return not has_tests or ran(folder, "--test").returncode == 0


def check(crate):
    """Whether the crate is proved, prints what it must if it is a program, and passes its tests; and what was said."""
    folder = "crates/" + crate
    proved, text = prove(folder)
    if proved and not prints_as_stored(folder):
        return False, "error: the program prints something else"
    if proved and not passes_its_tests(folder):
        return False, "error: a test fails"
    return proved, text


def plant(crate, path, old, new):
    """Whether the crate is proved with NEW in the place of OLD, and what the check said; none where OLD is not once there."""
    source = open(path, encoding="utf-8").read()
    if source.count(old) != 1:
        print("BAD %s: %r stands %d times" % (path, old, source.count(old)), flush=True)
        return None
    try:
        open(path, "w", encoding="utf-8").write(source.replace(old, new))
        return check(crate)
    finally:
        open(path, "w", encoding="utf-8").write(source)


def main():
    crates = sys.argv[1:] or sorted(name[:-len(".txt")] for name in os.listdir(LISTS))
    planted = survivors = 0
    for crate in crates:
        for path, old, new, is_bug in bugs_of(crate):
            begun = time.time()
            answer = plant(crate, path, old, new)
            if answer is None:
                continue
            proved, text = answer
            planted += is_bug
            survivors += is_bug and proved
            word = "refused " if not proved else "SURVIVES" if is_bug else "alike   "
            print("%s %3ds %s: %s => %s   %s" % (word, time.time() - begun, path, old, new,
                                                 "" if proved else first_error(text)), flush=True)
    print("%d planted, %d survive" % (planted, survivors))


if __name__ == "__main__":
    main()
