"""python3 c/layout_check.py MACHAUDIT COUNT FILE..: makes COUNT copies of each file, and damages all but the first by a fixed seed. It
compares the layout faults of each copy in the Python package with those that `machaudit --json` prints. These are rule, owner and text of
the first ten of each rule, and how many more there are. It prints how many faults of how many rules agree."""

import collections
import json
import os
import random
import subprocess
import sys
import tempfile

import goblin_mach

TOLD = 10


def damaged(data, chance):
    """Returns the bytes with some numbers at the start changed: to small ones, ones near the length, and any."""
    data = bytearray(data)
    for _ in range(chance.randrange(4)):
        at = 4 * chance.randrange(max(1, min(len(data), 1200) // 4))
        number = chance.choice([chance.randrange(64), len(data) - chance.randrange(64), chance.randrange(2 ** 32), 2 ** 32 - 1 - chance.randrange(64)])
        data[at:at + 4] = (number % 2 ** 32).to_bytes(4, chance.choice(["little", "big"]))
    return bytes(data)


def told(faults):
    """Returns what machaudit prints for faults: for each rule the first ten, and how many more there are."""
    counts = collections.Counter()
    lines = []
    for f in faults:
        counts[f.rule] += 1
        if counts[f.rule] <= TOLD:
            lines.append((f.rule, str(f.owner), str(f).split(": ", 2)[2]))
    return lines, sum(max(0, n - TOLD) for n in counts.values())


def part_of(parts, name):
    """Returns what machaudit prints for a part, if there is one."""
    for part in parts:
        if part["part"] == name:
            return [(f["kind"], f["owner"], f["words"]) for f in part["faults"]], part["more"]
    return [], 0


def compare(data, audit, seen):
    """Compares the faults of a table, and of each image that opens. Returns the first difference, or None."""
    pairs = [(told(goblin_mach.container_faults(data)), part_of(audit["container"], "table"))]
    entries = list(goblin_mach.fat_entries(data))
    files = [data[e.offset:e.offset + e.size] for e in entries] or [data]
    for file, image in zip(files, audit["images"]):
        if image.get("opens", "no") != "no":
            mode = goblin_mach.STRICT if image["opens"] == "strictly" else goblin_mach.LOSSY
            pairs.append((told(goblin_mach.Image(file, 0, mode).layout_faults()), part_of(image["parts"], "layout")))
    for found, wanted in pairs:
        if any(kind == "unreadable" for kind, _, _ in wanted[0]):  # only the library judges a table that isn't in the file
            continue
        if found != wanted:
            return f"found {found}\nwanted {wanted}"
        seen.update(rule for rule, _, _ in found[0])
    return None


def main(words):
    machaudit, count, files = words[0], int(words[1]), words[2:]
    chance, seen = random.Random(2026), collections.Counter()
    with tempfile.TemporaryDirectory() as room:
        names = []
        for file in files:
            with open(file, "rb") as f:
                data = f.read()
            for k in range(count):
                names.append(os.path.join(room, str(len(names))))
                with open(names[-1], "wb") as f:
                    f.write(damaged(data, chance) if k else data)
        lines = subprocess.run([machaudit, "--json", "--limit", "1000", *names], stdout=subprocess.PIPE, check=False).stdout.splitlines()
        if len(lines) != len(names):
            print(f"{len(lines)} lines of {len(names)} files")
            return 1
        for name, line in zip(names, lines):
            with open(name, "rb") as f:
                data = f.read()
            wrong = compare(data, json.loads(line), seen)
            if wrong:
                print(f"copy {name} differs: {wrong}")
                return 1
    print(f"{sum(seen.values())} faults of {len(seen)} rules agree")
    return 0


if __name__ == "__main__":
    sys.exit(main(sys.argv[1:]))
