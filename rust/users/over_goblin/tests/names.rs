// Written by ../compare.py: a use of each of goblin's names in `mach`, and a test of the constants.
include!(env!("GOBLIN_NAMES"));
