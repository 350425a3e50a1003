//! The fields of load commands by their names.
use crate::command_fields::{CommandField, CommandFields};
use crate::mach::MachO;
use crate::mach::load_command::LoadCommand;
use core::iter::FusedIterator;

impl<'a> MachO<'a> {
    /// Returns the fields of a load command of this image after `cmd` and `cmdsize`, by their names in the format, in the order of the
    /// record. They end before the first that the command's bytes don't hold. A command whose number has no table has none.
    ///
    /// ```
    /// # let bytes = std::fs::read("tests/data/b.macho")?;
    /// let image = goblin_mach::MachO::parse(&bytes, 0)?;
    /// for command in &image.load_commands {
    ///     for field in image.command_fields(command) {
    ///         match field.bytes_in(&bytes) {
    ///             Some(bytes) => println!("{} {}", field.name, String::from_utf8_lossy(bytes)),
    ///             None => println!("{} {:#x}", field.name, field.number),
    ///         }
    ///     }
    /// }
    /// # Ok::<(), Box<dyn std::error::Error>>(())
    /// ```
    pub fn command_fields(&self, command: &LoadCommand) -> CommandFields<'a> {
        let (cmd, size) = (command.command.cmd(), command.command.cmdsize());
        CommandFields::of(self.bytes(), self.ctx().le, command.offset, size, cmd)
    }
}

impl CommandField {
    /// Returns the name, text or UUID that the field names, in the bytes of its image. None if the field is a number, or if the command
    /// doesn't have that text.
    pub fn bytes_in<'a>(&self, bytes: &'a [u8]) -> Option<&'a [u8]> {
        let (place, len) = self.bytes?;
        bytes.get(place..)?.get(..len)
    }
}

impl Iterator for CommandFields<'_> {
    type Item = CommandField;

    fn next(&mut self) -> Option<CommandField> {
        self.next_field()
    }
}

impl FusedIterator for CommandFields<'_> {}
