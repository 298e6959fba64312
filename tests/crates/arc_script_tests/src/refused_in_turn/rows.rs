//! Scripts and their replies, which come from the script's page and never from what a run writes.
use arc_script::layout::ScriptLayout;

/// A script, its replies, and the layouts under which it has them.
#[derive(Clone, Copy)]
pub struct Row {
    pub script: &'static str,
    pub replies: &'static str,
    pub layouts: &'static [ScriptLayout],
}

/// Every layout.
const ALL: &[ScriptLayout] = &[
    ScriptLayout::Arc,
    ScriptLayout::Boxed,
    ScriptLayout::Vec,
    ScriptLayout::Raw,
];

/// Those that count an `Arc` once more.
const COUNTED: &[ScriptLayout] = &[ScriptLayout::Arc, ScriptLayout::Boxed, ScriptLayout::Vec];

/// The one that doesn't.
const BY_ITSELF: &[ScriptLayout] = &[ScriptLayout::Raw];

/// All rows: windows that are read and cut, writers, several of them, what they are made of, and
/// small windows.
pub const SCRIPTS: &[Row] = &[
    Row {
        script: "slice 48656c6c6f20776f726c64\nsub 0 0 5\nshow 1\n",
        replies: "h0\nh1\n48656c6c6f\n",
        layouts: ALL,
    },
    Row {
        script: "slice 0102\nsub 0 0 3\nsub 0 2 1\nsub 0 1 1\nshow 1\ndrop 0\nshow 0\n",
        replies: "h0\nout of range\ninvalid range\nh1\n-\nok\nno window\n",
        layouts: ALL,
    },
    Row {
        script: "slice 41\nuniq 0\nclone 0\nuniq 0\nclone 0\nclone 0\nclone 0\ndrop 1\nuniq 0\n",
        replies: "h0\nyes\nh1\nno\nh2\nh3\nh4\nok\nno\n",
        layouts: ALL,
    },
    Row {
        script: "slice 41\nclone 0\nclone 1\nclone 2\nclone 3\nshow 3\nshow 4\ndrop 0\nclone 1\n\
                 show 4\n",
        replies: "h0\nh1\nh2\nh3\nh4\n41\n41\nok\nh5\n41\n",
        layouts: ALL,
    },
    Row {
        script: "slice 48656c6c6f20776f726c64\nto 0 6\nshow 0\nshow 1\noff 0 0\nshow 0\nshow 2\n\
                 len 0\nadv 2 6\n",
        replies: "h0\nh1\n776f726c64\n48656c6c6f20\nh2\n-\n776f726c64\n0\nout of range\n",
        layouts: ALL,
    },
    Row {
        script: "mslice 0102030405060708\nadv 0 3\npush 0 09\nres 0 7\nroom 0\nres 0 8\nroom 0\n",
        replies: "h0\nok\nok\nok\n13\nok\n29\n",
        layouts: ALL,
    },
    Row {
        script: "cap 8\next 0 010203\nadv 0 3\nroom 0\nrec 0 8\nroom 0\nrec 0 9\n",
        replies: "h0\nok\nok\n5\nyes\n8\nno\n",
        layouts: ALL,
    },
    Row {
        script: "mslice 0102\nfreeze 0\npush 0 03\nclone 0\nmut 0\ndrop 1\nmut 0\npush 0 03\n\
                 show 0\n",
        replies: "h0\nok\nkind\nh1\nrefused\nok\nok\nok\n010203\n",
        layouts: ALL,
    },
    Row {
        script: "new\npush 0 01\nroom 0\nzero 3\nshow 1\npush 1 01\nshow 1\n",
        replies: "h0\nok\n8\nh1\n000000\nok\n00000001\n",
        layouts: ALL,
    },
    Row {
        script: "cap 8\next 0 010203\nshare 0\noff 0 5\njoin 0 1\npush 0 04\npush 0 05\njoin 0 1\n\
                 room 0\n",
        replies: "h0\nok\nok\nh1\nrefused\nok\nok\nok\n8\n",
        layouts: ALL,
    },
    Row {
        script: "mslice 01020304\nshare 0\noff 0 2\npush 0 05\ndrop 1\npush 0 05\nshow 0\nroom 0\n\
                 unique 0\n",
        replies: "h0\nok\nh1\nnot unique\nok\nok\n010205\n4\nok\n",
        layouts: ALL,
    },
    Row {
        script: "vec 0102\nmut 0\nshare 0\noff 0 1\nshow 1\njoin 0 1\nshow 0\ntake 0\n",
        replies: "h0\nok\nok\nh1\n02\nok\n0102\nrefused\n",
        layouts: ALL,
    },
    Row {
        script: "vec 00010203\nadv 0 2\ntake 0\nvec 0001\ntakebox 1\n",
        replies: "h0\nok\n0203\nh1\n0001\n",
        layouts: ALL,
    },
    Row {
        script: "vec 00010203\nto 0 0\ntake 0\nshow 1\nshow 0\n",
        replies: "h0\nh1\n00010203\n-\nno window\n",
        layouts: ALL,
    },
    Row {
        script: "buf 2a 7\nclone 0\nmeta 1\ntakebuf 0\ndrop 1\ntakebuf 0\n",
        replies: "h0\nh1\n7\nrefused\nok\n2a\n",
        layouts: ALL,
    },
    Row {
        script: "mbuf 0102 9\npush 0 03\nmeta 0\ntakebuf 0\nmbuf 0102 9\nadv 1 1\ntakebuf 1\n",
        replies: "h0\nok\n9\n010203\nh1\nok\nrefused\n",
        layouts: ALL,
    },
    Row {
        script: "raw 2a\nclone 0\nuniq 0\ntakeraw 0\n",
        replies: "h0\nh1\nno\nrefused\n",
        layouts: COUNTED,
    },
    Row {
        script: "raw 2a\nclone 0\nuniq 0\ntakeraw 0\n",
        replies: "h0\nh1\nno\n2a\n",
        layouts: BY_ITSELF,
    },
    Row {
        script: "static\nsub 0 0 2\ntakestatic 1\nmut 0\nuniq 0\n",
        replies: "h0\nh1\n6162\nrefused\nno\n",
        layouts: ALL,
    },
    Row {
        script: "small 0102\nclone 0\nadv 0 1\nshow 0\nsub 1 0 1\nshow 2\nuniq 0\n",
        replies: "h0\nh1\nok\n02\nh2\n01\nkind\n",
        layouts: ALL,
    },
    Row {
        script: "small 000102030405060708090a0b0c0d0e0f101112131415161718191a1b1c1d1e\nsub 0 1 3\n\
                 clone 0\ndrop 0\nshow 1\nlen 2\n",
        replies: "h0\nh1\nh2\nok\n0102\n31\n",
        layouts: ALL,
    },
];
