//! How the faults of a list are named in a command: as they are named in the
//! list, in small letters with hyphens between the words.

use std::fmt::Debug;

/// A list of faults, each named once.
macro_rules! fault_list {
    ($(#[$about:meta])* $kind:ident, $all:ident, $($fault:ident,)*) => {
        $(#[$about])*
        #[derive(Clone, Copy, PartialEq, Eq, Debug)]
        pub enum $kind {
            $($fault,)*
        }

        pub const $all: &[$kind] = &[$($kind::$fault,)*];
    };
}

pub(super) use fault_list;

pub fn hyphenated(fault: impl Debug) -> String {
    let mut name = String::new();
    let mut before = 'A';
    for letter in format!("{fault:?}").chars() {
        let begins_number = letter.is_ascii_digit() && !before.is_ascii_digit();
        if (letter.is_ascii_uppercase() || begins_number) && !name.is_empty() {
            name.push('-');
        }
        name.push(letter.to_ascii_lowercase());
        before = letter;
    }
    name
}
