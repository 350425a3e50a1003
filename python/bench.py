"""python3 python/bench.py FILE measures the lists of a file's first image, by processor time. It prints the seconds of the fastest of five
runs, and the microseconds an item."""

from __future__ import annotations

import sys
import time
from typing import Callable, Iterable, Tuple

import goblin_mach

ROUNDS = 5
LISTS = ("commands", "segments", "symbols", "libraries", "exports", "imports", "bindings", "fixups")


def run(items: Iterable[object]) -> Tuple[float, int]:
    """Returns how long it takes to iterate over some items, and how many they are."""
    begun, count = time.process_time(), 0
    for _ in items:
        count += 1
    return time.process_time() - begun, count


def least(items: Callable[[], Iterable[object]]) -> Tuple[float, int]:
    return min(run(items()) for _ in range(ROUNDS))


def main(path: str) -> None:
    with goblin_mach.open(path) as file:
        image = file[0]
        for name in LISTS:
            seconds, count = least(getattr(image, name))
            if count:
                print(f"{name:10} {count:9,} items {seconds:8.3f} s {1e6 * seconds / count:7.2f} us an item")


if __name__ == "__main__":
    main(sys.argv[1])
