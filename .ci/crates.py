"""The crates of crates.txt, as the scripts beside this file see them."""

import os
import re
import shutil

TOP = os.path.dirname(os.path.dirname(os.path.realpath(__file__)))
# What the prover reads of a crate.
PARTS = ("src", "specs", "proofs")


def text_of(path):
    """The text of a file, or nothing where it can't be read."""
    try:
        with open(path, encoding="utf-8") as file:
            return file.read()
    except OSError:
        return ""


def lines():
    """For each crate its line."""
    named = {line.partition("#")[0].partition(":")[0].strip(): line for line in text_of(f"{TOP}/crates.txt").splitlines(True)}
    return {words.split()[0]: line for words, line in named.items() if words}


def libraries():
    """For each crate all that it names, the kit's libraries too."""
    return {name: line.partition("#")[0].partition(":")[2].split() for name, line in lines().items()}


def uses():
    """For each crate the crates of the repository that it names."""
    named = libraries()
    return {name: [it for it in named[name] if it in named] for name in named}


def below(crates, name):
    """All crates that one stands on, itself apart."""
    found, wanted = set(), list(crates[name])
    while wanted:
        it = wanted.pop()
        if it not in found:
            found.add(it)
            wanted += crates[it]
    return found


def in_order(crates):
    """The crates, each behind all that it stands on."""
    done = {}

    def put(name):
        if name not in done:
            for it in crates[name]:
                put(it)
            done[name] = None

    for name in crates:
        put(name)
    return list(done)


def seconds():
    """For each crate in the table of docs/WORKING.md the processor seconds of its proof, its tests and its wrong bodies."""
    found = {}
    for line in text_of(f"{TOP}/docs/WORKING.md").splitlines():
        cells = [it.strip() for it in line.strip().strip("|").split("|")]
        name = re.fullmatch(r"`(\w+)`", cells[0])
        if name and len(cells) == 6:
            found[name[1]] = [int(cells[at] or 0) for at in (1, 2, 4)]
    return found


def is_program(name):
    """Whether a crate is a program."""
    return os.path.isfile(f"{TOP}/crates/{name}/src/main.rt")


def link(one, other):
    """Gives a file a second name, or copies it where that can't be."""
    try:
        os.link(one, other)
    except OSError:
        shutil.copy2(one, other)
