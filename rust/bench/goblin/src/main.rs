//! Times goblin: bench WORD FILE SECONDS. Its walk of a trie calls itself, and needs a large stack for a deep trie.
#[path = "../../bench.rs"]
mod bench;
#[path = "../../calls.rs"]
mod calls;

fn image_of(image: goblin::mach::MachO<'_>) -> Option<goblin::mach::MachO<'_>> {
    Some(image)
}

fn main() {
    calls::run(&[]);
}
