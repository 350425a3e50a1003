//! Where the bound names of a program are found.
use core::fmt;

#[doc(inline)]
pub use crate::generated::mach_resolve::{
    Answer, Given, NamePlace, Note, ResolveFailure, Resolved, all_settled, resolve as resolve_first,
};

/// Returns the answers for the bindings of a program, in order: the place of each name, in the program or in one of some libraries, or why it
/// has none. No more bindings are answered than the program has bytes; `more` of the result says whether there are more. It is
/// [`resolve_first`] with this limit.
///
/// The program is an image: of a universal file pass the bytes of an entry. Of a universal library the first entry for the program's cpu
/// is used.
///
/// ```
/// use goblin_mach::resolve::{Given, NamePlace, all_settled, resolve};
///
/// let program = std::fs::read("tests/data/p.macho")?;
/// let library = std::fs::read("tests/data/l.macho")?;
/// let given = |path, bytes| Given { path, bytes };
/// let resolved = resolve(given("p", &program), &[given("l", &library)])?;
/// for answer in &resolved.answers {
///     match answer.place {
///         NamePlace::Found { file, address, .. } => println!("{} {address:#x} in {file}", answer.name),
///         place => println!("{} {place:?}", answer.name),
///     }
/// }
/// assert!(!all_settled(&resolved.answers));
/// # Ok::<(), Box<dyn std::error::Error>>(())
/// ```
pub fn resolve<'a>(
    program: Given<'a>,
    libraries: &[Given<'a>],
) -> Result<Resolved<'a>, ResolveFailure> {
    resolve_first(program.bytes.len(), program, libraries)
}

impl fmt::Display for ResolveFailure {
    fn fmt(&self, f: &mut fmt::Formatter<'_>) -> fmt::Result {
        match self {
            ResolveFailure::Refused { file: 0, error } => write!(f, "the program: {error}"),
            ResolveFailure::Refused { file, error } => write!(f, "library {file}: {error}"),
            ResolveFailure::Memory => write!(f, "out of memory"),
        }
    }
}

impl core::error::Error for ResolveFailure {
    fn source(&self) -> Option<&(dyn core::error::Error + 'static)> {
        match self {
            ResolveFailure::Refused { error, .. } => Some(error),
            ResolveFailure::Memory => None,
        }
    }
}
