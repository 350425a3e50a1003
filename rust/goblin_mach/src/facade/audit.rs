//! Verdicts on an image, as an iterator, each with its words.
use crate::audit::{Finding, Findings};
use crate::mach::{MachO, Result};
use core::iter::FusedIterator;

/// Iterates over the verdicts on how an image is hardened. Each has a name, what it means, and whether it holds. What only a signature
/// answers is an error if that can't be read, and the other verdicts stay. Takes no memory.
///
/// An image of 32 bits has 19 verdicts, and one of 64 bits 18: only the first says whether code on the heap may be executed.
///
/// ```
/// use goblin_mach::audit::{Verdict, security};
///
/// # let bytes = std::fs::read("tests/data/chains.macho")?;
/// let image = goblin_mach::MachO::parse(&bytes, 0)?;
/// let mut held = Vec::new();
/// for finding in security(&image) {
///     let finding = finding?;
///     println!("{}: {} ({})", finding.name(), finding.is_so, finding.meaning());
///     if finding.is_so {
///         held.push(finding.verdict);
///     }
/// }
/// assert_eq!(held, [Verdict::ChainedFixups, Verdict::Stripped]);
/// # Ok::<(), Box<dyn std::error::Error>>(())
/// ```
pub fn security<'a, 'b>(image: &'b MachO<'a>) -> Findings<'a, 'b> {
    Findings::of(image)
}

impl Iterator for Findings<'_, '_> {
    type Item = Result<Finding>;

    fn next(&mut self) -> Option<Result<Finding>> {
        self.take_next()
    }

    fn size_hint(&self) -> (usize, Option<usize>) {
        (self.rest.len(), Some(self.rest.len()))
    }
}

impl ExactSizeIterator for Findings<'_, '_> {}

impl FusedIterator for Findings<'_, '_> {}

impl Finding {
    /// Returns the name of the verdict, as `pie`.
    pub fn name(&self) -> &'static str {
        self.verdict.words().0
    }

    /// Returns what it means that the verdict holds, as `loaded at a random address`.
    pub fn meaning(&self) -> &'static str {
        self.verdict.words().1
    }
}
