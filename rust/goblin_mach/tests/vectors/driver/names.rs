//! The names of numbers.
use super::lines::{Lines, list};
use super::vector::Vector;
use goblin_mach::header::{filetype_to_str, flag_to_str};
use goblin_mach::load_command::command_name;
use goblin_mach::relocation::reloc_to_str;
use goblin_mach::symbols::{N_STAB, N_TYPE, n_type_to_str};

/// What the calls give for a number without a name.
const UNKNOWN: &[&str] = &[
    "UNKNOWN FLAG",
    "UNKNOWN FILETYPE",
    "UNKNOWN_N_TYPE",
    "UNKNOWN",
    "BAD_CPUTYPE",
];

/// A line for each line of numbers, with the name that a call has for them.
fn named(vector: &Vector, name: impl Fn(&[u64]) -> &'static str) -> Option<Lines> {
    Some(list(vector.numbers.iter().map(Ok), |numbers| {
        let shown: Vec<_> = numbers
            .iter()
            .map(|number| format!("{number:#x}"))
            .collect();
        let name = name(numbers);
        let name = if UNKNOWN.contains(&name) {
            "none"
        } else {
            name
        };
        format!("{} {name}", shown.join(" "))
    }))
}

pub fn commands(vector: &Vector) -> Option<Lines> {
    named(vector, |numbers| {
        command_name(numbers[0] as u32).unwrap_or("none")
    })
}

pub fn file_types(vector: &Vector) -> Option<Lines> {
    named(vector, |numbers| filetype_to_str(numbers[0] as u32))
}

pub fn header_flags(vector: &Vector) -> Option<Lines> {
    named(vector, |numbers| flag_to_str(numbers[0] as u32))
}

/// None if one is that of an entry for a debugger, which the crate has no names of.
pub fn symbol_types(vector: &Vector) -> Option<Lines> {
    let is_for_debugger = |numbers: &Vec<u64>| numbers[0] & u64::from(N_STAB) != 0;
    if vector.numbers.iter().any(is_for_debugger) {
        return None;
    }
    named(vector, |numbers| n_type_to_str(numbers[0] as u8 & N_TYPE))
}

pub fn relocations(vector: &Vector) -> Option<Lines> {
    named(vector, |numbers| match numbers {
        [cputype, kind] => reloc_to_str(*kind as u8, *cputype as u32),
        _ => "UNKNOWN",
    })
}
