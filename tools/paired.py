#!/usr/bin/env python3
"""Plants paired bugs one at a time, and prints which of them every proof lets pass.

    tools/paired.py [--jobs N] [--only TEXT] [--tree FOLDER] [LIST..]     of these lists, or of all
    tools/paired.py --list [--only TEXT] [--tree FOLDER] [LIST..]         checks nothing, prints what does not fit the tree

A paired bug is one wrong meaning, put into a definition and into the code that mirrors it, so that the two still agree:
only a law above the definition, or an example of it, can refuse it. A LIST is the name of a file tools/paired/NAME.txt
or the path of another. It holds blocks, parted by blank lines:

    # what the bug means
    PATH: OLD ==> NEW
    PATH: OLD ==> NEW

OLD stands once in the file at PATH, after the lines above it are done; `\\n` in OLD or NEW is the end of a line, and
`\\\\n` the two characters. A block of comments alone is none. One that nothing can refuse says why in a line more:

    equivalent: REASON        no caller can see it
    survives: REASON          one can, and no law says so

Each bug is planted in a copy of the tree, made once for each job together with what checks kept there. Then the crates
that it touches and those that stand on them are checked, the lowest first, until one is not proved; where all are, the
programs among them and their tests run. A line for each bug says first how it was found:

    refused     a crate is not proved
    printed     all are proved, but a program prints something else, or a test fails
    SURVIVES    neither
    known       neither, of a block that is marked; marked blocks count in no sum
    BAD         nothing is shown: OLD does not stand there once, what is planted does not compile, or a program did not end

The environment variable RT names the command that checks, if not rt.
"""
import argparse
import concurrent.futures
import glob
import os
import queue
import shutil
import subprocess
import tempfile
import time

import plant

HERE = os.path.dirname(os.path.realpath(__file__))
LISTS = os.path.join(HERE, "paired")
MARKS = ("equivalent: ", "survives: ")


class Block:
    """A paired bug: what it means, whether it is marked, and its edits: path, OLD and NEW."""

    def __init__(self, name, lines):
        self.name = name
        self.meaning = lines[0][1:].strip() if lines[0].startswith("#") else "(no meaning)"
        self.marked = any(line.startswith(MARKS) for line in lines)
        self.edits = [edit_of(line) for line in lines if not line.startswith(("#",) + MARKS)]


def edit_of(line):
    """Path, OLD and NEW of a line; OLD is nothing where the line is no edit."""
    path, _, rest = line.partition(": ")
    old, _, new = (rest + " ").partition(" ==> ")
    return path, unescaped(old), unescaped(new[:-1])


def unescaped(text):
    return "\\n".join(part.replace("\\n", "\n") for part in text.split("\\\\n"))


def blocks_of(path):
    name = os.path.basename(path)[:-len(".txt")]
    for part in open(path, encoding="utf-8").read().split("\n\n"):
        lines = [line for line in part.split("\n") if line.strip()]
        if any(not line.startswith("#") for line in lines):
            yield Block(name, lines)


def texts_of(tree, block):
    """Each file that a block edits, as it stands and as the edits make it; and what does not fit, if anything."""
    now, planted = {}, {}
    for path, old, new in block.edits:
        file = os.path.join(tree, path)
        if not os.path.exists(file):
            return now, planted, "there is no %s" % path
        if file not in now:
            now[file] = planted[file] = open(file, encoding="utf-8").read()
        if not old or planted[file].count(old) != 1:
            return now, planted, "%s: %r stands %d times" % (path, old, planted[file].count(old) if old else 0)
        planted[file] = planted[file].replace(old, new)
    return now, planted, None


def write_all(texts):
    for file, text in texts.items():
        open(file, "w", encoding="utf-8").write(text)


def crates_in_order(tree):
    """The crates, each behind those that it uses, with all that each stands on."""
    uses = {}
    for line in open(os.path.join(tree, "crates.txt"), encoding="utf-8"):
        head, colon, tail = line.partition("#")[0].partition(":")
        if colon:
            uses[head.split()[0]] = tail.split()
    below = {}

    def visit(crate):
        if crate not in below:
            used = [name for name in uses[crate] if name in uses]
            below[crate] = set(used).union(*[visit(name) for name in used])
        return below[crate]

    for crate in uses:
        visit(crate)
    return below


def is_no_program(block, crate, text, error):
    """Whether the check judged nothing, or stopped at a planted definition that is none: that refuses no meaning."""
    place = os.path.normpath(os.path.join("crates", crate, error.partition(":")[0]))
    judged = any(line.startswith("logic=") for line in text.splitlines())
    return not judged or "/specs/" in place and place in {path for path, _, _ in block.edits}


def judge(tree, block):
    """How the planted tree is found wrong, and in which crate and by what; `SURVIVES` where it is not."""
    touched = {path.split("/")[1] for path, _, _ in block.edits}
    crates = [crate for crate, low in crates_in_order(tree).items() if crate in touched or low & touched]
    folders = [os.path.join(tree, "crates", crate) for crate in crates]
    for crate, folder in zip(crates, folders):
        proved, text = plant.prove(folder)
        if not proved:
            error = plant.first_error(text)
            return "BAD" if is_no_program(block, crate, text, error) else "refused", crate, error
    for crate, folder in zip(crates, folders):
        if not plant.prints_as_stored(folder):
            return "printed", crate, "the program prints something else"
        if not plant.passes_its_tests(folder):
            return "printed", crate, "a test fails"
    return "SURVIVES", "", ""


def copy_of(tree):
    """A copy of what checks read and kept."""
    copy = tempfile.mkdtemp(prefix="paired-")
    names = ["crates", "crates.txt"] + ["HANDLES"] * os.path.exists(os.path.join(tree, "HANDLES"))
    subprocess.run(["cp", "-a"] + [os.path.join(tree, name) for name in names] + [copy], check=True)
    return copy


def try_out(block, copies):
    """Plants a block in a free copy, judges that, and puts the copy back."""
    copy, begun = copies.get(), time.time()
    now, planted, misfit = texts_of(copy, block)
    try:
        write_all(planted)
        return ("BAD", "", misfit, 0) if misfit else (*judge(copy, block), time.time() - begun)
    except RuntimeError as error:
        return "BAD", "", str(error), time.time() - begun
    finally:
        write_all(now)
        copies.put(copy)


def plant_all(blocks, tree, jobs):
    copies, folders = queue.Queue(), [copy_of(tree) for _ in range(jobs)]
    counts = {}
    try:
        for folder in folders:
            copies.put(folder)
        with concurrent.futures.ThreadPoolExecutor(jobs) as workers:
            tries = {workers.submit(try_out, block, copies): block for block in blocks}
            for done in concurrent.futures.as_completed(tries):
                block, (word, crate, error, seconds) = tries[done], done.result()
                if not block.marked:
                    counts[word] = counts.get(word, 0) + 1
                elif word == "SURVIVES":
                    word = "known"
                print("%-8s %-15s %4ds %s: %s   %s" % (word, crate, seconds, block.name, block.meaning, error), flush=True)
    finally:
        for folder in folders:
            shutil.rmtree(folder, ignore_errors=True)
    print(", ".join("%d %s" % (counts[word], word) for word in sorted(counts, key=str.lower)) or "none planted")


def main():
    parser = argparse.ArgumentParser(description=__doc__.partition("\n")[0])
    parser.add_argument("--jobs", type=int, default=1, help="how many copies are checked side by side")
    parser.add_argument("--tree", default=os.path.dirname(HERE), help="the repository, if not the tool's own")
    parser.add_argument("--list", action="store_true", help="prints what does not fit, and checks nothing")
    parser.add_argument("--only", metavar="TEXT", default="", help="those whose meaning has this text")
    parser.add_argument("lists", nargs="*", help="names of lists, or paths; all lists of the tool, if none")
    asked = parser.parse_args()
    paths = [name if name.endswith(".txt") else os.path.join(LISTS, name + ".txt") for name in asked.lists]
    blocks = [block for path in paths or sorted(glob.glob(LISTS + "/*.txt")) for block in blocks_of(path) if asked.only in block.meaning]
    if not asked.list:
        return plant_all(blocks, asked.tree, asked.jobs)
    for block in blocks:
        _, _, misfit = texts_of(asked.tree, block)
        if misfit:
            print("BAD %s: %s   %s" % (block.name, block.meaning, misfit))
    print("%d blocks, %d marked" % (len(blocks), sum(block.marked for block in blocks)))


if __name__ == "__main__":
    main()
