"""The command: what it writes, and what it compares."""
import os
import re
import shutil
import sys

from . import audit, contracts, golden
from .lexer import Stop
from .project import Project, read_files, write_files

# The folders of generated sources, by the files of their crates. The first is the library's.
FOLDERS = {
    "rust/crates.conf": "rust/goblin_mach/src/generated", "rust/tools.conf": "rust/goblin_mach_tools/src/generated",
    "rust/capi.conf": "rust/goblin_mach_capi/src/generated",
}


def make(top):
    """Returns all files, as a dictionary from their paths below the top."""
    find_definitions(top)
    library, *users = (Project(top, os.path.join(top, config)) for config in FOLDERS)
    made = {user.config: user.files() for user in users}
    for user in users:
        user.public.lend_by_hand(os.path.join(top, os.path.dirname(FOLDERS[user.config])))
    made[library.config] = library.files(users)
    return {os.path.join(FOLDERS[config], name): text for config, files in made.items() for name, text in files.items()}


def find_definitions(top):
    """Has documentation link to the page of definitions, if Cargo.toml has the address of the repository."""
    with open(os.path.join(top, "rust", "goblin_mach", "Cargo.toml"), encoding="utf-8") as file:
        address = re.search(r'(?m)^repository = "(.*?)/?"$', file.read())
    if address:
        with open(os.path.join(top, "docs", "DEFINITIONS.md"), encoding="utf-8") as file:
            contracts.find_definitions(file.read(), address[1] + "/blob/main/docs/DEFINITIONS.md")


def generate(top):
    """Writes all files; returns the status."""
    made = make(top)
    for folder in FOLDERS.values():
        shutil.rmtree(os.path.join(top, folder), ignore_errors=True)
    write_files(top, made)
    print("erase: %d files, %d lines" % (len(made), sum(text.count("\n") for text in made.values())))
    return 0


def check(top):
    """Compares what would be written with what is there; returns the status."""
    made, there = make(top), {}
    for folder in FOLDERS.values():
        there.update({os.path.join(folder, name): text for name, text in read_files(os.path.join(top, folder)).items()})
    differ = sorted(name for name in made.keys() | there.keys() if made.get(name) != there.get(name))
    for name in differ:
        what = "has no source" if name not in made else "is missing" if name not in there else "is not what its source makes"
        print("erase: %s %s: run tools/erase" % (name, what))
    print("%d passed, %d failed" % (len(made.keys() | there.keys()) - len(differ), len(differ)))
    return 1 if differ else 0


def main(top, words, usage):
    """Runs the command with its words; returns its status."""
    writes = words[1:] == ["--write"] and words[0] in ("--test", "--audit")
    commands = {"": generate, "--check": check, "--test": lambda _: golden.run(writes), "--audit": lambda _: audit.run(top, writes)}
    command = commands.get(words[0] if words else "")
    if command is None or len(words) > 1 and not writes:
        print(usage, end="", file=sys.stderr)
        return 2
    try:
        return command(top)
    except Stop as error:
        print("erase: %s" % error, file=sys.stderr)
        return 1
