//! Vectors and boxes in and out: with places to spare, and of items of no size.
use arc_block::layout::DefaultLayoutMut;
use arc_buffer::kinds::{Owned, Plain, VecIn, Wraps};
use arc_read::slice::ArcSlice;
use arc_write::slice_mut::ArcSliceMut;
use std::alloc::Global;
use std::test::Fail;

/// What is told of a window of a vector: how many items it has; whether a reader is alone, or a
/// writer has the vector's places; and how many items the vector has that it gives back, and
/// whether that has as many places as before. None of the last two where none is given back.
type Told = Option<(usize, bool, Option<(usize, bool)>)>;

/// A vector of a kind, and how many places it has.
fn with_places<S: VecIn<Global>>(items: S::Vec) -> (S::Vec, usize) {
    let inner = items.into_inner();
    let places = inner.capacity();
    (S::Vec::from_inner(inner), places)
}

/// How many items a vector of a kind has, and whether it has so many places.
fn counted<S: VecIn<Global>>(items: S::Vec, places: usize) -> (usize, bool) {
    let inner = items.into_inner();
    (inner.len(), inner.capacity() == places)
}

fn reader<S: VecIn<Global>>(alloc: Global, items: S::Vec) -> Told
where
    S::Vec: Drop,
{
    let (items, places) = with_places::<S>(items);
    let window = ArcSlice::<S>::try_from_vec(alloc, items).ok()?;
    let (len, is_alone) = (window.len(), window.is_unique());
    match window.try_into_vec() {
        Ok(items) => Some((len, is_alone, Some(counted::<S>(items, places)))),
        Err(_) => Some((len, is_alone, None)),
    }
}

fn writer<S: VecIn<Global>>(alloc: Global, items: S::Vec) -> Told
where
    S::Vec: Drop,
{
    let (items, places) = with_places::<S>(items);
    let window = ArcSliceMut::<S, DefaultLayoutMut, 1>::try_from_vec(alloc, items).ok()?;
    let (len, has_places) = (window.len(), window.capacity() == places);
    match window.try_into_vec() {
        Ok(items) => Some((len, has_places, Some(counted::<S>(items, places)))),
        Err(_) => Some((len, has_places, None)),
    }
}

/// Three bytes with five places to spare.
fn bytes(alloc: Global) -> Option<Vec<u8>> {
    let mut bytes = Vec::with_capacity(alloc, 8).ok()?;
    bytes.extend_from_slice(&[1, 2, 3]).ok()?;
    Some(bytes)
}

/// Three items of no size.
fn units(alloc: Global) -> Option<Vec<()>> {
    Vec::from_slice(alloc, &[(); 3]).ok()
}

/// Two boxes with two places to spare.
fn boxes(alloc: Global) -> Option<Vec<Box<u8>>> {
    let mut boxes = Vec::with_capacity(alloc, 4).ok()?;
    boxes.push(Box::new(alloc, 7).ok()?).ok()?;
    boxes.push(Box::new(alloc, 9).ok()?).ok()?;
    Some(boxes)
}

/// What is told of readers of vectors with items, as `Told`.
fn read(alloc: Global) -> Option<[Told; 2]> {
    Some([
        reader::<Plain<u8>>(alloc, bytes(alloc)?),
        reader::<Plain<()>>(alloc, units(alloc)?),
    ])
}

/// The same of writers.
fn written(alloc: Global) -> Option<[Told; 3]> {
    Some([
        writer::<Plain<u8>>(alloc, bytes(alloc)?),
        writer::<Plain<()>>(alloc, units(alloc)?),
        writer::<Owned<Box<u8>>>(alloc, boxes(alloc)?),
    ])
}

/// What is told of a window of so many items that gives them back.
fn told(len: usize) -> Told {
    Some((len, true, Some((len, true))))
}

/// A vector comes back with all its places.
#[test]
fn in_and_out(rt: HostRuntime) -> Result<(), Fail> {
    assert!(rt; read(rt.alloc()) == Some([told(3), told(3)]));
    assert!(rt; written(rt.alloc()) == Some([told(3), told(3), told(2)]));
    Ok(())
}

/// Whether a window of a box whose memory has places to spare has the box's bytes, and the box that
/// it gives back.
fn of_box(alloc: Global, wanted: &[u8]) -> Option<[bool; 2]> {
    let items = bytes(alloc)?.into_boxed_slice();
    let window = ArcSlice::<Plain<u8>>::try_from_boxed(alloc, items).ok()?;
    let is_same = window.as_slice() == wanted;
    let back = window.try_into_boxed().ok()?;
    Some([is_same, &back[..] == wanted])
}

/// The same of a box of boxes: how many come back, and what the first one has.
fn of_box_of_boxes(alloc: Global) -> Option<(usize, Option<u8>)> {
    let items = boxes(alloc)?.into_boxed_slice();
    let window = ArcSlice::<Owned<Box<u8>>>::try_from_boxed(alloc, items).ok()?;
    let back = window.try_into_boxed().ok()?;
    Some((back.len(), back.first().map(|item| **item)))
}

/// A box keeps its items where its memory has to be cut to them.
#[test]
fn boxed_with_room(rt: HostRuntime) -> Result<(), Fail> {
    assert!(rt; of_box(rt.alloc(), &[1, 2, 3]) == Some([true; 2]));
    assert!(rt; of_box_of_boxes(rt.alloc()) == Some((2, Some(7))));
    Ok(())
}
