//! Where results go that nothing else reads.
use crate::owned::Item;
use arc_slice::buffer::Owned;
use arc_slice::inlined::SmallArcBytes;
use arc_slice::layout::{BoxedSliceLayout, RawLayout, VecLayout};
use arc_slice::{ArcBytes, ArcBytesMut, ArcBytesShared, ArcSlice};
use bytes::{Bytes, BytesMut};
use std::sync::atomic::AtomicU64;
use std::sync::atomic::Ordering::Relaxed;

/// A window over items that are dropped one by one.
pub type OwnedReader = ArcSlice<Owned<Item>>;

/// Takes results, so that the loops that make them aren't optimized away.
pub trait Keep {
    /// Takes a number.
    fn number(&self, n: usize);

    /// Takes bytes.
    fn bytes(&self, bytes: &[u8]);

    /// Takes a window, which has to lie in memory for it.
    fn window(&self, window: &ArcBytes);

    /// Takes a small window.
    fn small(&self, window: &SmallArcBytes);

    /// Takes a window that is written.
    fn writer(&self, writer: &ArcBytesMut);

    /// Takes the kit's bytes.
    fn kit(&self, bytes: &Bytes);

    /// Takes the kit's bytes that are written.
    fn kit_writer(&self, bytes: &BytesMut);

    /// Takes a vector.
    fn vector(&self, vec: &Vec<u8>);

    /// Takes a window under the layout of boxes.
    fn boxed(&self, window: &ArcBytes<BoxedSliceLayout>);

    /// Takes a window under the layout of vectors.
    fn lone(&self, window: &ArcBytes<VecLayout>);

    /// Takes a window under the layout of Arcs.
    fn raw(&self, window: &ArcBytes<RawLayout>);

    /// Takes a window of items that are dropped one by one.
    fn owned(&self, window: &OwnedReader);

    /// Takes a window of one of several writers.
    fn shared(&self, writer: &ArcBytesShared);
}

/// Takes all and does nothing.
pub struct Silent;

impl Keep for Silent {
    fn number(&self, n: usize) {
        let _ = n;
    }

    fn bytes(&self, bytes: &[u8]) {
        let _ = bytes;
    }

    fn window(&self, window: &ArcBytes) {
        let _ = window;
    }

    fn small(&self, window: &SmallArcBytes) {
        let _ = window;
    }

    fn writer(&self, writer: &ArcBytesMut) {
        let _ = writer;
    }

    fn kit(&self, bytes: &Bytes) {
        let _ = bytes;
    }

    fn kit_writer(&self, bytes: &BytesMut) {
        let _ = bytes;
    }

    fn vector(&self, vec: &Vec<u8>) {
        let _ = vec;
    }

    fn boxed(&self, window: &ArcBytes<BoxedSliceLayout>) {
        let _ = window;
    }

    fn lone(&self, window: &ArcBytes<VecLayout>) {
        let _ = window;
    }

    fn raw(&self, window: &ArcBytes<RawLayout>) {
        let _ = window;
    }

    fn owned(&self, window: &OwnedReader) {
        let _ = window;
    }

    fn shared(&self, writer: &ArcBytesShared) {
        let _ = writer;
    }
}

/// Counts what it is given.
#[derive(Drop)]
pub struct Counting {
    pub given: AtomicU64,
}

impl Keep for Counting {
    fn number(&self, n: usize) {
        self.given.fetch_add(n as u64, Relaxed);
    }

    fn bytes(&self, bytes: &[u8]) {
        self.given.fetch_add(bytes.len() as u64, Relaxed);
    }

    fn window(&self, window: &ArcBytes) {
        self.given.fetch_add(window.len() as u64, Relaxed);
    }

    fn small(&self, window: &SmallArcBytes) {
        self.given.fetch_add(window.len() as u64, Relaxed);
    }

    fn writer(&self, writer: &ArcBytesMut) {
        self.given.fetch_add(writer.len() as u64, Relaxed);
    }

    fn kit(&self, bytes: &Bytes) {
        self.given.fetch_add(bytes.len() as u64, Relaxed);
    }

    fn kit_writer(&self, bytes: &BytesMut) {
        self.given.fetch_add(bytes.len() as u64, Relaxed);
    }

    fn vector(&self, vec: &Vec<u8>) {
        self.given.fetch_add(vec.len() as u64, Relaxed);
    }

    fn boxed(&self, window: &ArcBytes<BoxedSliceLayout>) {
        self.given.fetch_add(window.len() as u64, Relaxed);
    }

    fn lone(&self, window: &ArcBytes<VecLayout>) {
        self.given.fetch_add(window.len() as u64, Relaxed);
    }

    fn raw(&self, window: &ArcBytes<RawLayout>) {
        self.given.fetch_add(window.len() as u64, Relaxed);
    }

    fn owned(&self, window: &OwnedReader) {
        self.given.fetch_add(window.len() as u64, Relaxed);
    }

    fn shared(&self, writer: &ArcBytesShared) {
        self.given.fetch_add(writer.len() as u64, Relaxed);
    }
}
