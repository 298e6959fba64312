//! Static slices: given back, and their size.
use arc_block::static_slice::{StaticItems, StaticShare, StaticSlice};
use std::alloc::Layout;
use std::test::Fail;

#[test]
fn given_back_while_another_lives(rt: HostRuntime) -> Result<(), Fail> {
    let whole = StaticSlice::new(b"Hello");
    let items: &'static [u8] = whole.again().into_static();
    let is_same = items == whole.as_slice();
    drop(whole);
    assert!(rt; (is_same, items) == (true, b"Hello".as_slice()));
    Ok(())
}

#[test]
fn three_words_of_memory(rt: HostRuntime) -> Result<(), Fail> {
    let sizes = [
        Layout::new::<StaticSlice<u8>>().size(),
        Layout::new::<StaticItems<u8>>().size(),
        Layout::new::<StaticShare<u8>>().size(),
    ];
    assert!(rt; sizes == [24, 8, 0]);
    Ok(())
}
