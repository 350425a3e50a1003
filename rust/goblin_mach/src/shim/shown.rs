//! How `Debug` prints records: numbers in hexadecimal, names as texts. With the flag `-`, which Rust gives no meaning, it prints what derived
//! `Debug` does: goblin's form, which `debug::Goblin` selects.
use core::fmt::{self, Debug, Formatter, LowerHex};

/// A number in hexadecimal.
pub struct Hex<'b, T>(pub &'b T);

/// Sixteen bytes that begin with a text. If it isn't UTF-8, they are printed as bytes.
pub struct Text<'b>(pub &'b [u8; 16]);

/// Bytes as digits without spaces.
pub struct HexBytes<'b, const N: usize>(pub &'b [u8; N]);

/// Any other value.
pub struct Plain<'b, T>(pub &'b T);

impl<T: LowerHex + Debug> Debug for Hex<'_, T> {
    fn fmt(&self, f: &mut Formatter<'_>) -> fmt::Result {
        if f.sign_minus() {
            return Debug::fmt(self.0, f);
        }
        write!(f, "{:#x}", self.0)
    }
}

impl Debug for Text<'_> {
    fn fmt(&self, f: &mut Formatter<'_>) -> fmt::Result {
        let end = self.0.iter().position(|byte| *byte == 0).unwrap_or(16);
        match core::str::from_utf8(&self.0[..end]) {
            Ok(text) if !f.sign_minus() => write!(f, "{text:?}"),
            _ => Debug::fmt(self.0, f),
        }
    }
}

impl<const N: usize> Debug for HexBytes<'_, N> {
    fn fmt(&self, f: &mut Formatter<'_>) -> fmt::Result {
        if f.sign_minus() {
            return Debug::fmt(self.0, f);
        }
        self.0.iter().try_for_each(|byte| write!(f, "{byte:02x}"))
    }
}

impl<T: Debug> Debug for Plain<'_, T> {
    fn fmt(&self, f: &mut Formatter<'_>) -> fmt::Result {
        Debug::fmt(self.0, f)
    }
}

/// Implements `Debug` of a record. Each field has one of the forms above.
macro_rules! shown {
    ($kind:ident $(<$($life:lifetime),*>)? { $($field:ident: $how:ident),* }) => {
        impl core::fmt::Debug for $kind $(<$($life),*>)? {
            /// Prints numbers in hexadecimal, and names as texts.
            fn fmt(&self, f: &mut core::fmt::Formatter<'_>) -> core::fmt::Result {
                f.debug_struct(stringify!($kind))
                    $(.field(stringify!($field), &crate::shim::shown::$how(&self.$field)))*
                    .finish()
            }
        }
    };
}

pub(crate) use shown;
