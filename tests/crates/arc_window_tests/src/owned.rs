//! Owned items of a writer under `Whole`: they stay with their forgotten owner.
use arc_block::layout::DefaultLayoutMut;
use arc_buffer::kinds::Owned;
use arc_owners::mark::Whole;
use arc_owners::owners::Pass;
use arc_write::slice_mut::ArcSliceMut;
use linked_list_allocator::LocalHeap;
use std::sync::Arc;
use std::test::Fail;

type Writer<'a> = ArcSliceMut<
    Owned<Arc<u8>>,
    DefaultLayoutMut,
    1,
    Vec<Arc<u8>>,
    (),
    &'a LocalHeap,
    Whole,
>;

/// Whether an item was pushed to a window under `Whole`, which is then dropped.
fn pushed_and_forgotten(heap: &LocalHeap, item: Arc<u8>) -> Option<bool> {
    let mut pass = Pass::none();
    let Ok(mut window) = Writer::try_with_capacity_as(heap, 4, &mut pass) else {
        return None;
    };
    Some(window.try_push_as(item, &mut pass).is_ok())
}

/// Dropped under `Whole` a window stays the owner of its block: its item isn't dropped, and neither
/// the items' memory nor the count's is given back, which are more than the items' places alone.
#[test]
fn kept_by_a_forgotten_owner(rt: HostRuntime) -> Result<(), Fail> {
    let item = Arc::new(rt.alloc(), 7u8)?;
    let heap = LocalHeap::new(rt.alloc(), 512)?;
    let pushed = pushed_and_forgotten(&heap, Arc::try_clone(&item)?);
    assert!(rt; (pushed, Arc::strong_count(&item)) == (Some(true), 2));
    assert!(rt; 4 * 8 < heap.used());
    Ok(())
}
