//! Commands of rows, and the texts that go in with them.
use arc_block::static_slice::StaticSlice;
use arc_buffer::kinds::Text;
use arc_table::command::{Cmd, Given, Reply};
use arc_table::kinds::TableCmd;
use std::alloc::{Allocator, Global};
use std::boxed::BoxedStr;

/// A command of a table of texts.
pub type Sent = TableCmd<Text, Vec<u8>, (), Global>;

/// A command, with the text that it brings, or that it is to show or to give. Windows go by their
/// numbers.
#[derive(Clone, Copy)]
pub enum Call {
    Slice(&'static str),
    MSlice(&'static str),
    Small(&'static str),
    /// A string, without a copy.
    Vec(&'static str),
    /// A text behind the other.
    Ext(usize, &'static str),
    Static(&'static str),
    /// An `Arc` of these bytes.
    Raw(&'static [u8]),
    /// A buffer of these bytes, to be read.
    Buf(&'static [u8]),
    /// The same, to be written.
    MBuf(&'static [u8]),
    /// A writer with so many places.
    Cap(usize),
    /// A writer over so many zeros.
    Zero(usize),
    /// This byte behind the others.
    Push(usize, u8),
    /// This text is shown.
    Show(usize, &'static str),
    Len(usize),
    Room(usize),
    Uniq(usize),
    Clone(usize),
    Sub(usize, usize, usize),
    Off(usize, usize),
    To(usize, usize),
    Adv(usize, usize),
    Trunc(usize, usize),
    Freeze(usize),
    Mut(usize),
    Share(usize),
    Unique(usize),
    Join(usize, usize),
    Drop(usize),
    /// This text comes back, as a string; none where that is refused.
    Take(usize, &'static str),
    /// The same, as a box.
    TakeBox(usize, &'static str),
    TakeBuf(usize),
    TakeRaw(usize),
    /// The same, as one that lies there for good.
    TakeStatic(usize, &'static str),
}

/// The text that a command is to show or to give.
pub fn wanted(call: Call) -> &'static str {
    match call {
        Call::Show(_, text)
        | Call::Take(_, text)
        | Call::TakeBox(_, text)
        | Call::TakeStatic(_, text) => text,
        _ => "",
    }
}

/// Whether a reply shows or gives this text.
pub fn has_text<
    A: Allocator,
    G: Given<Shown = Vec<u8, A>, Vector = String<A>, Boxed = BoxedStr<A>, Static = StaticSlice<u8>>,
>(reply: &Reply<G>, text: &str) -> bool {
    match reply {
        Reply::Items(shown) => shown.as_slice() == text.as_bytes(),
        Reply::Vec(string) => string.as_bytes() == text.as_bytes(),
        Reply::Boxed(string) => string.as_str().as_bytes() == text.as_bytes(),
        Reply::Static(items) => items.as_slice() == text.as_bytes(),
        _ => false,
    }
}

/// A string, if there is memory.
fn string(alloc: Global, text: &str) -> Option<String> {
    String::from_str(alloc, text).ok()
}

/// A command that brings a buffer of bytes, if there is memory for it.
fn buffering(alloc: Global, call: Call) -> Option<Sent> {
    let metadata = ();
    match call {
        Call::Raw(bytes) => Some(Cmd::Raw(Vec::from_slice(alloc, bytes).ok()?)),
        Call::Buf(bytes) => {
            let buffer = Vec::from_slice(alloc, bytes).ok()?;
            Some(Cmd::Buf { buffer, metadata })
        }
        Call::MBuf(bytes) => {
            let buffer = Vec::from_slice(alloc, bytes).ok()?;
            Some(Cmd::MBuf { buffer, metadata })
        }
        _ => None,
    }
}

/// A command that brings a text or bytes, if there is memory for them.
fn bringing(alloc: Global, call: Call) -> Option<Sent> {
    match call {
        Call::Slice(text) => Some(Cmd::Slice(string(alloc, text)?)),
        Call::MSlice(text) => Some(Cmd::MSlice(string(alloc, text)?)),
        Call::Small(text) => Some(Cmd::Small(string(alloc, text)?)),
        Call::Vec(text) => Some(Cmd::Vec(string(alloc, text)?)),
        Call::Ext(window, text) => {
            let items = string(alloc, text)?;
            Some(Cmd::Ext { window, items })
        }
        _ => buffering(alloc, call),
    }
}

/// The command, if there is memory for what it brings.
pub fn command(alloc: Global, call: Call) -> Option<Sent> {
    let told = match call {
        Call::Static(text) => Cmd::Static(text),
        Call::Cap(places) => Cmd::Cap { places },
        Call::Zero(count) => Cmd::Zero { count },
        Call::Push(window, item) => Cmd::Push { window, item },
        Call::Show(window, _) => Cmd::Show { window },
        Call::Len(window) => Cmd::Len { window },
        Call::Room(window) => Cmd::Room { window },
        Call::Uniq(window) => Cmd::Uniq { window },
        Call::Clone(window) => Cmd::Clone { window },
        Call::Sub(window, start, end) => Cmd::Sub { window, start, end },
        Call::Off(window, at) => Cmd::Off { window, at },
        Call::To(window, at) => Cmd::To { window, at },
        Call::Adv(window, by) => Cmd::Adv { window, by },
        Call::Trunc(window, len) => Cmd::Trunc { window, len },
        Call::Freeze(window) => Cmd::Freeze { window },
        Call::Mut(window) => Cmd::Mut { window },
        Call::Share(window) => Cmd::Share { window },
        Call::Unique(window) => Cmd::Unique { window },
        Call::Join(window, other) => Cmd::Join { window, other },
        Call::Drop(window) => Cmd::Drop { window },
        Call::Take(window, _) => Cmd::Take { window },
        Call::TakeBox(window, _) => Cmd::TakeBox { window },
        Call::TakeBuf(window) => Cmd::TakeBuf { window },
        Call::TakeRaw(window) => Cmd::TakeRaw { window },
        Call::TakeStatic(window, _) => Cmd::TakeStatic { window },
        _ => return bringing(alloc, call),
    };
    Some(told)
}
