"""Which image provides a symbol (docs/FORMAT-DYLD.md, *ordinals*)."""

from .reading import quoted, require

SPECIAL = {0: "itself", -1: "main-executable", -2: "flat", -3: "weak-look-up"}


def is_provider(ordinal, libs):
    return ordinal in SPECIAL or 0 < ordinal < len(libs)


def provider_of(ordinal, libs):
    """Returns the words of a special provider, or the ordinal and the name of a library."""
    if ordinal in SPECIAL:
        return SPECIAL[ordinal]
    require(is_provider(ordinal, libs))
    return f"{ordinal} {quoted(libs[ordinal])}"
