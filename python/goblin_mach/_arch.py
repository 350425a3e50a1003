"""Names of architectures."""

from __future__ import annotations

from ._library import lib


def arch_name(cputype: int, cpusubtype: int) -> str:
    """Returns the name of an architecture, whatever its capabilities, for example "arm64e": that of LLVM's tools. One without a name is
    "unknown(99,3)", as lipo prints it."""
    name = lib.gm_cpu_name(cputype, cpusubtype)
    return f"unknown({cputype},{cpusubtype & 0xFFFFFF})" if name is None else str(name.decode())
