//! What the generated modules take of Rattle's standard library, and of libraries of the toolchain. Written by hand. All `unsafe`
//! code of the crate is here. Nothing here was proved.
pub(crate) mod env;
pub(crate) mod fs;
pub(crate) mod io;
pub(crate) mod rt;
pub(crate) mod strsim;
pub(crate) mod time;

use core::fmt;

pub(crate) use goblin_mach::AllocError;
pub(crate) use goblin_mach::internals::shim::{TryGrow, TryList, TryString, try_vec};

/// A text that grows, or is refused memory and stays unchanged.
pub(crate) trait TryText {
    fn try_push_str(&mut self, text: &str) -> Result<(), AllocError>;
}

impl TryText for String {
    fn try_push_str(&mut self, text: &str) -> Result<(), AllocError> {
        self.try_reserve(text.len())?;
        self.push_str(text);
        Ok(())
    }
}

/// A text to which formatters write.
struct Grows(String);

impl fmt::Write for Grows {
    fn write_str(&mut self, text: &str) -> fmt::Result {
        self.0.try_push_str(text).map_err(|_| fmt::Error)
    }
}

/// What has a text.
pub(crate) trait TryShow: fmt::Display {
    fn try_to_string(&self) -> Result<String, AllocError> {
        let mut grows = Grows(String::new());
        match fmt::write(&mut grows, format_args!("{self}")) {
            Ok(()) => Ok(grows.0),
            Err(fmt::Error) => Err(AllocError),
        }
    }
}

impl<T: fmt::Display + ?Sized> TryShow for T {}

/// `format!(in alloc; ..)`.
macro_rules! format_in {
    ($($form:tt)*) => { $crate::shim::TryShow::try_to_string(&format_args!($($form)*)) };
}

pub(crate) use format_in;
