//! Methods by which users reach at once what takes two proved calls or more.
use crate::generated::mach_base::read_text;
use crate::mach::{MachO, Result, Stretch};

impl Stretch {
    /// Returns the name of the segment or the section: the text with which the field `name` begins. Fails if it isn't UTF-8.
    ///
    /// ```
    /// # let bytes = std::fs::read("tests/data/b.macho")?;
    /// # let image = goblin_mach::MachO::parse(&bytes, 0)?;
    /// let segments = goblin_mach::AllStretches::of_image(&image)?;
    /// let first = segments.get(0).expect("a segment");
    /// assert_eq!(first.memory.name()?, "__TEXT");
    /// # Ok::<(), Box<dyn std::error::Error>>(())
    /// ```
    pub fn name(&self) -> Result<&str> {
        read_text(&self.name, 0)
    }
}

impl<'a> MachO<'a> {
    /// Returns the code signature, or none if no load command places one: what [`crate::signature::code_signature`] does.
    ///
    /// ```
    /// # let bytes = std::fs::read("tests/data/b.macho")?;
    /// let image = goblin_mach::MachO::parse(&bytes, 0)?;
    /// match image.code_signature()? {
    ///     Some(signature) => println!("signed as {:?}", signature.directory()?.identifier()?),
    ///     None => println!("not signed"),
    /// }
    /// # Ok::<(), Box<dyn std::error::Error>>(())
    /// ```
    #[cfg(feature = "signature")]
    pub fn code_signature(&self) -> Result<Option<crate::signature::CodeSignature<'a>>> {
        crate::generated::mach_signature::image::code_signature(self)
    }
}
