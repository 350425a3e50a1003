"""Compares the Rust crate with goblin 0.2.1: names, constants, and what the examples and `Debug` print for each image of the repository.
tools/rust-check runs it."""
import os
import re
import subprocess

HERE = os.path.dirname(os.path.abspath(__file__))
TOP = os.path.dirname(os.path.dirname(HERE))
GOBLIN = "/usr/share/cargo/registry/goblin-0.2.1"
PROGRAMS = ("list", "nm", "commands", "debug_ids", "opcodes", "signer", "tree")
# Commands that goblin 0.2.1 doesn't know and calls LC_UNKNOWN.
NEWER = ("LC_BUILD_VERSION", "LC_DYLD_CHAINED_FIXUPS", "LC_DYLD_EXPORTS_TRIE", "LC_FILESET_ENTRY", "LC_NOTE")
# Constants whose numbers differ from goblin's. Its records of libraries have 24 bytes, and it says 20.
OTHER = ("::load_command::SIZEOF_DYLIB_COMMAND",)


def uleb(theirs, ours):
    """Renames the size of a LEB128 number, which scroll calls `count`."""
    return re.sub(r"(Uleb128 \{ value: \d+, )count:", r"\1size:", theirs), ours


def newer(theirs, ours):
    """Renames the commands above, for which goblin 0.2.1 has no name."""
    return theirs, re.sub(r"\b(?:%s)\b" % "|".join(NEWER), "LC_UNKNOWN", ours)


def trie(theirs, ours):
    """Drops the exports of an image for which goblin lists none. goblin 0.2.1 doesn't read the exports of LC_DYLD_EXPORTS_TRIE."""
    if "\nexport " in theirs:
        return theirs, ours
    return theirs, re.sub(r"(?m)^export .*\n", "", ours)


# The differences that are known, by program. The documentation of each function states its difference.
KNOWN = {"list": (uleb, trie), "commands": (newer,), "opcodes": (trie,)}


def images():
    """Returns the images of the repository."""
    found = []
    for folder, _, names in os.walk(os.path.join(TOP, "crates")):
        found += [os.path.join(folder, name) for name in names if name.endswith(".macho")]
    return sorted(found)


def ran(program, image):
    """Returns what a program prints for an image, or None if the program refuses the image."""
    done = subprocess.run([program, image], stdout=subprocess.PIPE, stderr=subprocess.DEVNULL, text=True, check=False)
    return done.stdout if done.returncode == 0 else None


def outputs(theirs, ours):
    """Runs the programs of two folders. Yields (what is compared, whether both are the same, what differs). Each known difference that doesn't
    occur is yielded too, as one that fails, and each program that is refused by most images."""
    shown = dict.fromkeys(PROGRAMS, 0)
    unused = {(program, known) for program in PROGRAMS for known in KNOWN.get(program, ())}
    for program in PROGRAMS:
        for image in images():
            one, other = ran(os.path.join(theirs, program), image), ran(os.path.join(ours, program), image)
            for known in KNOWN.get(program, ()):
                if one is not None and other is not None and one != other:
                    before = (one, other)
                    one, other = known(one, other)
                    if (one, other) != before:
                        unused.discard((program, known))
            shown[program] += bool(one and other)
            said = "" if one == other else "goblin:\n%s\ngoblin_mach:\n%s" % (one, other)
            yield "%s prints for %s what it prints over goblin" % (program, os.path.relpath(image, TOP)), one == other, said
    for program, count in shown.items():
        yield "%s prints something for five images over both" % program, count >= 5, "only for %d" % count
    for program, known in sorted(unused, key=lambda pair: (pair[0], pair[1].__name__)):
        yield "the known difference '%s' of %s occurs" % (known.__name__, program), False, ""


def public(text, indent):
    """Returns the public names of a source, at an indent, as (kind, name)."""
    return re.findall(r"(?m)^%spub (fn|struct|enum|trait|const|type) (\w+)" % indent, text)


def modules():
    """Yields the modules of goblin's `mach`, as (path, its public names)."""
    folder = os.path.join(GOBLIN, "src", "mach")
    for name in sorted(os.listdir(folder)):
        with open(os.path.join(folder, name), encoding="utf-8") as file:
            text = re.sub(r"//[^\n]*", "", file.read())
        module = name[: -len(".rs")]
        yield "" if module == "mod" else "::" + module, public(text, "")
        if module == "constants":
            yield "::constants::cputype", public(text, "    ")


def names():
    """Returns a Rust source that compiles only if the crate has goblin's names. Its test passes only if the crate has goblin's constants."""
    uses, same = [], []
    for module, found in modules():
        for kind, name in found:
            path = "%s::%s" % (module, name)
            if kind == "const":
                compared = "assert_ne" if path in OTHER else "assert_eq"
                same.append("    %s!(goblin::mach%s, goblin_mach::mach%s);\n" % (compared, path, path))
            else:
                uses.append("#[allow(unused_imports)]\nuse goblin_mach::mach%s as _N%d;\n" % (path, len(uses)))
    return "%s\n#[test]\nfn constants() {\n%s}\n" % ("".join(uses), "".join(same))
