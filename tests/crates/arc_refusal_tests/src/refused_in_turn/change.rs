//! Windows that are asked, and changed in their place.
use super::call::{Ask, Change, Reply, done_where, yes_or_no};
use super::window::{Reader, Writer};
use arc_block::layout::{Layout, LayoutMut};
use arc_owners::error::TryReserveError;
use std::io::Write;

/// The reply to room that is refused.
pub fn room_reply(e: TryReserveError) -> Reply {
    match e {
        TryReserveError::NotUnique => Reply::NotUnique,
        TryReserveError::Unsupported => Reply::Unsupported,
        TryReserveError::AllocError => Reply::NoMemory,
        TryReserveError::CapacityOverflow => Reply::TooLarge,
    }
}

/// Metadata as a reply.
pub fn metadata_reply(metadata: Option<&u8>) -> Reply {
    match metadata {
        Some(metadata) => Reply::Number(usize::from(*metadata)),
        None => Reply::No,
    }
}

/// What a window that is read answers.
pub fn ask_reader<L: Layout>(window: &Reader<'_, L>, what: Ask) -> Reply {
    match what {
        Ask::Show(text) => done_where(window.as_slice() == text.as_bytes()),
        Ask::Room => Reply::NoCall,
        Ask::IsUnique => yes_or_no(window.is_unique()),
        Ask::Metadata => metadata_reply(window.metadata()),
    }
}

/// What a window that is written answers.
pub fn ask_writer<K: LayoutMut>(window: &Writer<'_, K>, what: Ask) -> Reply {
    match what {
        Ask::Show(text) => done_where(window.as_slice() == text.as_bytes()),
        Ask::Room => Reply::Number(window.capacity()),
        Ask::IsUnique => Reply::NoCall,
        Ask::Metadata => metadata_reply(window.metadata()),
    }
}

/// Changes a window that is read.
pub fn change_reader<L: Layout>(window: &mut Reader<'_, L>, what: Change) -> Reply {
    match what {
        Change::Advance(by) => {
            if window.check_at(by).is_err() {
                return Reply::NoCall;
            }
            window.advance(by);
            Reply::Done
        }
        Change::Truncate(len) => {
            window.truncate(len);
            Reply::Done
        }
        _ => Reply::NoCall,
    }
}

fn advance<K: LayoutMut>(window: &mut Writer<'_, K>, by: usize) -> Reply {
    if window.check_at(by).is_err() {
        return Reply::NoCall;
    }
    window.advance(by);
    Reply::Done
}

fn push<K: LayoutMut>(window: &mut Writer<'_, K>, item: u8) -> Reply {
    match window.try_push(item) {
        Ok(()) => Reply::Done,
        Err((e, back)) => {
            if back == item {
                room_reply(e)
            } else {
                Reply::Wrong
            }
        }
    }
}

/// The reply to room that is made or refused.
pub fn room_made(made: Result<(), TryReserveError>) -> Reply {
    match made {
        Ok(()) => Reply::Done,
        Err(e) => room_reply(e),
    }
}

/// How many of these bytes a window takes.
pub fn put<W: Write>(window: &mut W, text: &str) -> Reply {
    match window.write(text.as_bytes()) {
        Ok(count) => Reply::Number(count),
        Err(_) => Reply::Wrong,
    }
}

/// Changes a window that is written.
pub fn change_writer<K: LayoutMut>(window: &mut Writer<'_, K>, what: Change) -> Reply {
    match what {
        Change::Advance(by) => advance(window, by),
        Change::Truncate(len) => {
            window.truncate(len);
            Reply::Done
        }
        Change::Push(item) => push(window, item),
        Change::Extend(text) => room_made(window.try_extend_from_slice(text.as_bytes())),
        Change::Put(text) => put(window, text),
        Change::Reserve(more) => room_made(window.try_reserve(more)),
        Change::Reclaim(more) => yes_or_no(window.try_reclaim(more)),
    }
}
