#!/usr/bin/env python3
"""Writes images with one number that is as large as can be, and images with a few bytes damaged at random.

  tools/hostile_files/sweep.py FOLDER IMAGES [SEED] [COUNT]

IMAGES is a folder with `object.macho`, `library.macho`, `executable.macho` and `chained.macho`. The files are made from these and from a fat file of
two of them. Each file `word_*` has one 32-bit word set to 2^32 - 1. It is a word of the load commands, or of a fat file also of the table. The COUNT
files `damaged_*`, 2,000 if no number is given, have up to eight bytes damaged. The same SEED gives the same ones."""
import os
import random
import struct
import sys

NAMES = ("object", "library", "executable", "chained")


def commands_of(image, at=0):
    """Returns the range of the load commands of the image that begins at a place."""
    wide = image[at:at + 4] == b"\xcf\xfa\xed\xfe"
    first = at + (32 if wide else 28)
    return first, first + struct.unpack_from("<I", image, at + 20)[0]


def fat_of(images):
    """Returns a fat file of these images, each at a multiple of 4096, for cpus 1, 2 and so on."""
    table, slices = struct.pack(">2I", 0xCAFEBABE, len(images)), b""
    for number, image in enumerate(images):
        slices += bytes(-len(slices) % 4096)
        table += struct.pack(">5I", number + 1, 3, 4096 + len(slices), len(image), 12)
        slices += image
    return table.ljust(4096, b"\0") + slices


def bases(folder):
    """Returns the images, by name, each with the ranges of its commands and tables."""
    found = {}
    for name in NAMES:
        with open(f"{folder}/{name}.macho", "rb") as file:
            image = file.read()
        found[name] = (image, [commands_of(image)])
    fat = fat_of([found[name][0] for name in ("library", "executable")])
    places = [struct.unpack_from(">I", fat, 8 + 20 * k + 8)[0] for k in range(2)]
    found["fat"] = (fat, [(0, 48), *(commands_of(fat, at) for at in places)])
    return found


def swept(images):
    """Yields each image with each word of its ranges set to 2^32 - 1."""
    for name, (image, ranges) in images.items():
        for at in (it for begin, end in ranges for it in range(begin, end, 4)):
            yield f"word_{name}_{at}", image[:at] + b"\xff" * 4 + image[at + 4:]


def damaged(images, seed, count):
    """Yields so many images with a few bytes damaged. Most of these bytes are within the commands and tables."""
    some = random.Random(seed)
    for number in range(count):
        image, ranges = images[some.choice(sorted(images))]
        made = bytearray(image)
        for _ in range(some.randint(1, 8)):
            begin, end = some.choice([*ranges, (0, len(made))] if some.random() < 0.5 else ranges)
            made[some.randrange(begin, end)] = some.choice((0, 1, 0x7F, 0x80, 0xFF, some.randrange(256)))
        yield f"damaged_{number}", bytes(made)


def write(folder, images, seed, count=2000):
    """Writes all of them, and returns their paths."""
    os.makedirs(folder, exist_ok=True)
    found, paths = bases(images), []
    for made in (swept(found), damaged(found, seed, count)):
        for name, data in made:
            paths.append(f"{folder}/{name}")
            with open(paths[-1], "wb") as file:
                file.write(data)
    return paths


if __name__ == "__main__":
    if len(sys.argv) not in (3, 4, 5):
        print(__doc__.split("\n\n")[1], file=sys.stderr)
        sys.exit(2)
    write(sys.argv[1], sys.argv[2], *map(int, sys.argv[3:]))
