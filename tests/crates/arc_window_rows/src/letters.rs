//! Items that rows write as letters.
ghost use Rattle.std.specs.Fmt.{debug_list};

use arc_buffer::kinds::{DebugItem, ZeroItem};
use std::fmt;
use std::hash::Hash;

/// Items that are written as letters, each as a byte.
pub trait Letter: Ord + Hash + Drop {
    /// The item that is written so.
    fn of(byte: u8) -> Self;

    /// How the item is written.
    fn byte(&self) -> u8;

    /// Items that lie there for good, written so, if there are some.
    fn lasting(text: &[u8]) -> Option<&'static [Self]>
    where
        Self: Sized + 'static;
}

/// The texts that lie there for good.
const TEXTS: &[&str] = &["", "abcd", "aéb", "Hello world"];

/// A text that lies there for good, if this is one.
pub fn lasting_text(text: &[u8]) -> Option<&'static str> {
    for lasting in TEXTS {
        if lasting.as_bytes() == text {
            return Some(lasting);
        }
    }
    None
}

impl Letter for u8 {
    fn of(byte: u8) -> u8 {
        byte
    }

    fn byte(&self) -> u8 {
        *self
    }

    fn lasting(text: &[u8]) -> Option<&'static [u8]> {
        match lasting_text(text) {
            Some(lasting) => Some(lasting.as_bytes()),
            None => None,
        }
    }
}

/// The numbers of the letters of `abcd`.
const NUMBERS: &[u32] = &[97, 98, 99, 100];

impl Letter for u32 {
    fn of(byte: u8) -> u32 {
        u32::from(byte)
    }

    fn byte(&self) -> u8 {
        u8::try_from(*self).unwrap_or(b'?')
    }

    fn lasting(text: &[u8]) -> Option<&'static [u32]> {
        match text {
            b"abcd" => Some(NUMBERS),
            _ => None,
        }
    }
}

/// An item of no size, written `u`.
#[derive(Clone, Copy, Debug, PartialEq, Eq, PartialOrd, Ord, Hash)]
pub struct Unit;

/// Units that lie there for good.
const UNITS: &[Unit] = &[Unit, Unit, Unit, Unit];

impl Letter for Unit {
    fn of(byte: u8) -> Unit {
        let _ = byte;
        Unit
    }

    fn byte(&self) -> u8 {
        let _ = self;
        b'u'
    }

    fn lasting(text: &[u8]) -> Option<&'static [Unit]> {
        match text {
            b"uuuu" => Some(UNITS),
            _ => None,
        }
    }
}

impl ZeroItem for Unit {
    ghost zero_item = { record {} };

    fn zero() -> Unit {
        Unit
    }
}

impl DebugItem for Unit {
    ghost debug_plain = { debug_list Self.debug_output };

    fn fmt_plain<W: fmt::Write>(items: &[Unit], f: &mut fmt::Formatter<W>) -> fmt::Result {
        fmt::Debug::fmt(&items, f)
    }
}

/// An item that is moved, and dropped by itself.
#[derive(Debug, PartialEq, Eq, PartialOrd, Ord, Hash, Drop)]
pub struct Name {
    byte: u8,
}

/// Names that lie there for good.
const NAMES: &[Name] = &[
    Name { byte: b'a' },
    Name { byte: b'b' },
    Name { byte: b'c' },
    Name { byte: b'd' },
];

impl Letter for Name {
    fn of(byte: u8) -> Name {
        Name { byte }
    }

    fn byte(&self) -> u8 {
        self.byte
    }

    fn lasting(text: &[u8]) -> Option<&'static [Name]> {
        match text {
            b"abcd" => Some(NAMES),
            _ => None,
        }
    }
}
