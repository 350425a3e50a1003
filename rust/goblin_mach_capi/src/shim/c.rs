//! The functions of the C library. Each takes a slice as its address and its length, and has the name that c/goblin_mach.c calls.
#![allow(unsafe_code)]
// One takes no parameters.
#![allow(unused_unsafe)]

use crate::generated::goblin_mach_c::calls::{self, calls};
use core::slice;

// Exports a function: what is left of its parameters, those of C, and the arguments that are made of them.
macro_rules! export {
    ($name:ident($($rest:tt)*) $(-> $result:ty)?) => { export!(@ $name [$($rest)*,] [] [] $($result)?); };
    (@ $name:ident [$item:ident: &[$of:ty], $($rest:tt)*] [$($taken:tt)*] [$($given:tt)*] $($result:ty)?) => {
        export!(@ $name [$($rest)*] [$($taken)* $item: *const u8, len: usize,] [$($given)* slice::from_raw_parts($item.cast(), len),] $($result)?);
    };
    (@ $name:ident [$item:ident: &mut [$of:ty], $($rest:tt)*] [$($taken:tt)*] [$($given:tt)*] $($result:ty)?) => {
        export!(@ $name [$($rest)*] [$($taken)* $item: *mut u8, len: usize,] [$($given)* slice::from_raw_parts_mut($item.cast(), len),] $($result)?);
    };
    (@ $name:ident [$item:ident: &mut $of:ty, $($rest:tt)*] [$($taken:tt)*] [$($given:tt)*] $($result:ty)?) => {
        export!(@ $name [$($rest)*] [$($taken)* $item: *mut u8,] [$($given)* &mut *$item.cast(),] $($result)?);
    };
    (@ $name:ident [$item:ident: &$of:ty, $($rest:tt)*] [$($taken:tt)*] [$($given:tt)*] $($result:ty)?) => {
        export!(@ $name [$($rest)*] [$($taken)* $item: *const u8,] [$($given)* &*$item.cast(),] $($result)?);
    };
    (@ $name:ident [$item:ident: $of:ty, $($rest:tt)*] [$($taken:tt)*] [$($given:tt)*] $($result:ty)?) => {
        export!(@ $name [$($rest)*] [$($taken)* $item: $of,] [$($given)* $item,] $($result)?);
    };
    (@ $name:ident [$(,)?] [$($taken:tt)*] [$($given:tt)*] $($result:ty)?) => {
        #[unsafe(no_mangle)]
        unsafe extern "C" fn $name($($taken)*) $(-> $result)? {
            // SAFETY: the caller, c/goblin_mach.c, passes no NULL. The header tells its callers how long each array is, and that
            // what is written overlaps nothing.
            unsafe { calls::$name($($given)*) }
        }
    };
}

calls!(export);
