//! GnuCOBOL's moves, where its compiler was there when this program was built.

use std::ffi::c_int;

/// A program of build/cobol.rs: the number of records, their numbers and the records.
type Move = unsafe extern "C" fn(*const i32, *mut u8, *mut u8) -> c_int;

/// The programs of one size.
#[derive(Clone, Copy)]
pub struct Moves {
    pub read_binary: Move,
    pub read_display: Move,
    pub edit_binary: Move,
    pub edit_display: Move,
}

#[cfg(cobol)]
macro_rules! programs {
    ($($fields:literal: $read_binary:ident $read_display:ident $edit_binary:ident $edit_display:ident;)*) => {
        extern "C" {
            fn cob_init(words: c_int, first: *const *const std::ffi::c_char);
            $(
                fn $read_binary(count: *const i32, numbers: *mut u8, records: *mut u8) -> c_int;
                fn $read_display(count: *const i32, numbers: *mut u8, records: *mut u8) -> c_int;
                fn $edit_binary(count: *const i32, numbers: *mut u8, records: *mut u8) -> c_int;
                fn $edit_display(count: *const i32, numbers: *mut u8, records: *mut u8) -> c_int;
            )*
        }
        /// The programs of this size.
        pub fn moves(fields: usize) -> Option<Moves> {
            // Without words nothing is read through the null pointer.
            unsafe { cob_init(0, std::ptr::null()) };
            match fields {
                $($fields => Some(Moves {
                    read_binary: $read_binary,
                    read_display: $read_display,
                    edit_binary: $edit_binary,
                    edit_display: $edit_display,
                }),)*
                _ => None,
            }
        }
    };
}

#[cfg(cobol)]
programs! {
    1: moves_1_read_binary moves_1_read_display moves_1_edit_binary moves_1_edit_display;
    4: moves_4_read_binary moves_4_read_display moves_4_edit_binary moves_4_edit_display;
    32: moves_32_read_binary moves_32_read_display moves_32_edit_binary moves_32_edit_display;
}

#[cfg(not(cobol))]
pub fn moves(_fields: usize) -> Option<Moves> {
    None
}
