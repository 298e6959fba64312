//! Scripts for devices that fail and memory that runs out, and their replies. The worked rows of
//! the script's lines stand in `tests/rows` of the repository.

/// A script, and its replies.
pub const HELLO: &[u8] = b"slice 48656c6c6f20776f726c64\nsub 0 0 5\nshow 1\n";

pub const HELLO_REPLIES: &[u8] = b"h0\nh1\n48656c6c6f\n";

/// Its replies where memory may be refused to one of its commands.
pub const REPLIES_IN_NEED: [&[u8]; 4] = [
    HELLO_REPLIES,
    b"h0\nh1\nallocation error\n",
    b"h0\nallocation error\nno window\n",
    b"allocation error\nno window\nno window\n",
];

/// A script that makes windows, clones and cuts on two blocks and on none and drops only some, and
/// its replies.
pub const LEFT: &[u8] =
    b"slice 4142434445\nslice 6162\nclone 0\nsub 0 1 4\nsub 3 0 2\nclone 1\nslice -\nuniq 0\ndrop 0\ndrop 1\nsub 3 1 1\nuniq 5\nuniq 3\nshow 4\n";

pub const LEFT_REPLIES: &[u8] = b"h0\nh1\nh2\nh3\nh4\nh5\nh6\nno\nok\nok\nh7\nyes\nno\n4243\n";

pub const USAGE: &[u8] = b"usage: arcs arc|boxed|vec|raw|storm N\n";
