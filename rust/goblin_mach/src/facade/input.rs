//! The images of any file.
use crate::mach::{Content, Images, Input, MachO, Result};
use core::iter::FusedIterator;

/// An iterator over the images of a file. Each item is an image, or the error of opening it. It is made by [`Input::machos`].
#[derive(Clone, Debug)]
pub struct InputMachOs<'a>(Images<'a>);

impl<'a> Input<'a> {
    /// Iterates over the images of the file: the image itself, each entry of a fat file, and each member of an archive. What is no image,
    /// or can't be read, is an error among the items, and the others follow. [`Input::images`] has the places of the images, too.
    ///
    /// ```
    /// # let bytes = std::fs::read("tests/data/c.macho")?;
    /// for image in goblin_mach::Input::parse(&bytes)?.machos() {
    ///     match image {
    ///         Ok(image) => println!("cpu {:#x}, {} symbols", image.header.cputype, image.symbols().count()),
    ///         Err(error) => println!("no image: {error}"),
    ///     }
    /// }
    /// # Ok::<(), Box<dyn std::error::Error>>(())
    /// ```
    pub fn machos(&self) -> InputMachOs<'a> {
        InputMachOs(self.images())
    }
}

impl<'a> Iterator for InputMachOs<'a> {
    type Item = Result<MachO<'a>>;

    fn next(&mut self) -> Option<Result<MachO<'a>>> {
        let holds_something = |content: &Result<Content>| !matches!(content, Ok(Content::NoMember));
        let content = self
            .0
            .by_ref()
            .map(|item| item.content)
            .find(holds_something)?;
        Some(content.and_then(|content| content.open()))
    }
}

impl FusedIterator for InputMachOs<'_> {}
