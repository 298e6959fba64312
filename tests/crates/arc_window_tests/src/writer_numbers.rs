//! Numbers that are put into write windows by the windows' own methods, those of one of several
//! writers too.
use arc_write::slice_mut::{ArcBytesMut, ArcBytesShared, ArcSliceMut};
use bytes::Buf;
use std::alloc::{AllocError, Global};
use std::sync::Wait;

/// A number, by the method that puts it.
#[derive(Clone, Copy)]
enum Number {
    I8(i8),
    U16(u16),
    U16Le(u16),
    I16(i16),
    I16Le(i16),
    U32(u32),
    U32Le(u32),
    I32(i32),
    I32Le(i32),
    U64(u64),
    U64Le(u64),
    I64(i64),
    I64Le(i64),
    U128(u128),
    U128Le(u128),
    I128(i128),
    I128Le(i128),
    F32(f32),
    F32Le(f32),
    F64(f64),
    F64Le(f64),
    Uint(u64, usize),
    UintLe(u64, usize),
    Int(i64, usize),
    IntLe(i64, usize),
}

/// Numbers, and their bytes. Of a number below 0 these are 255 less 1, 2 and so on.
const ROWS: &[(Number, &[u8])] = &[
    (Number::I8(-2), &[0xfe]),
    (Number::U16(0x0102), &[1, 2]),
    (Number::U16Le(0x0102), &[2, 1]),
    (Number::I16(-0x0103), &[0xfe, 0xfd]),
    (Number::I16Le(-0x0103), &[0xfd, 0xfe]),
    (Number::U32(0x0102_0304), &[1, 2, 3, 4]),
    (Number::U32Le(0x0102_0304), &[4, 3, 2, 1]),
    (Number::I32(-0x0102_0305), &[0xfe, 0xfd, 0xfc, 0xfb]),
    (Number::I32Le(-0x0102_0305), &[0xfb, 0xfc, 0xfd, 0xfe]),
    (
        Number::U64(0x0102_0304_0506_0708),
        &[1, 2, 3, 4, 5, 6, 7, 8],
    ),
    (
        Number::U64Le(0x0102_0304_0506_0708),
        &[8, 7, 6, 5, 4, 3, 2, 1],
    ),
    (
        Number::I64(-0x0102_0304_0506_0709),
        &[0xfe, 0xfd, 0xfc, 0xfb, 0xfa, 0xf9, 0xf8, 0xf7],
    ),
    (
        Number::I64Le(-0x0102_0304_0506_0709),
        &[0xf7, 0xf8, 0xf9, 0xfa, 0xfb, 0xfc, 0xfd, 0xfe],
    ),
    (
        Number::U128(0x0102_0304_0506_0708_090a_0b0c_0d0e_0f10),
        &[1, 2, 3, 4, 5, 6, 7, 8, 9, 10, 11, 12, 13, 14, 15, 16],
    ),
    (
        Number::U128Le(0x0102_0304_0506_0708_090a_0b0c_0d0e_0f10),
        &[16, 15, 14, 13, 12, 11, 10, 9, 8, 7, 6, 5, 4, 3, 2, 1],
    ),
    (
        Number::I128(-0x0102_0304_0506_0708_090a_0b0c_0d0e_0f11),
        &[
            254, 253, 252, 251, 250, 249, 248, 247, 246, 245, 244, 243, 242, 241, 240, 239,
        ],
    ),
    (
        Number::I128Le(-0x0102_0304_0506_0708_090a_0b0c_0d0e_0f11),
        &[
            239, 240, 241, 242, 243, 244, 245, 246, 247, 248, 249, 250, 251, 252, 253, 254,
        ],
    ),
    (Number::F32(1.5), &[0x3f, 0xc0, 0, 0]),
    (Number::F32Le(1.5), &[0, 0, 0xc0, 0x3f]),
    (Number::F64(-2.5), &[0xc0, 4, 0, 0, 0, 0, 0, 0]),
    (Number::F64Le(-2.5), &[0, 0, 0, 0, 0, 0, 4, 0xc0]),
    (Number::Uint(0xff01_0203, 3), &[1, 2, 3]),
    (Number::UintLe(0xff01_0203, 3), &[3, 2, 1]),
    (Number::Int(-0x0103, 2), &[0xfe, 0xfd]),
    (Number::IntLe(-0x0103, 2), &[0xfd, 0xfe]),
];

/// Puts a number into a window.
fn put(window: &mut ArcBytesMut, number: Number) -> Result<(), AllocError> {
    match number {
        Number::I8(number) => window.put_i8(number),
        Number::U16(number) => window.put_u16(number),
        Number::U16Le(number) => window.put_u16_le(number),
        Number::I16(number) => window.put_i16(number),
        Number::I16Le(number) => window.put_i16_le(number),
        Number::U32(number) => window.put_u32(number),
        Number::U32Le(number) => window.put_u32_le(number),
        Number::I32(number) => window.put_i32(number),
        Number::I32Le(number) => window.put_i32_le(number),
        Number::U64(number) => window.put_u64(number),
        Number::U64Le(number) => window.put_u64_le(number),
        Number::I64(number) => window.put_i64(number),
        Number::I64Le(number) => window.put_i64_le(number),
        Number::U128(number) => window.put_u128(number),
        Number::U128Le(number) => window.put_u128_le(number),
        Number::I128(number) => window.put_i128(number),
        Number::I128Le(number) => window.put_i128_le(number),
        Number::F32(number) => window.put_f32(number),
        Number::F32Le(number) => window.put_f32_le(number),
        Number::F64(number) => window.put_f64(number),
        Number::F64Le(number) => window.put_f64_le(number),
        Number::Uint(number, count) => window.put_uint(number, count),
        Number::UintLe(number, count) => window.put_uint_le(number, count),
        Number::Int(number, count) => window.put_int(number, count),
        Number::IntLe(number, count) => window.put_int_le(number, count),
    }
}

/// Whether a number is put into a window that has these places beside one of a byte: whether it is
/// taken, the places left, and whether the bytes behind the first are these.
fn put_within(
    alloc: Global,
    places: usize,
    number: Number,
    bytes: &[u8],
) -> Option<(bool, usize, bool)> {
    let mut window: ArcBytesMut = ArcSliceMut::try_with_capacity(alloc, places + 1).ok()?;
    window.try_push(9).ok()?;
    let is_put = put(&mut window, number).is_ok();
    let (first, others) = window.as_slice().split_first()?;
    let is_there = *first == 9 && others == bytes;
    Some((is_put, window.capacity() - window.len(), is_there))
}

/// The first row that goes otherwise, by its place; all rows' number where none does. A number is
/// taken where there are just as many places as it has bytes; where one lacks nothing changes.
fn passed(alloc: Global) -> usize {
    for (at, row) in ROWS.iter().enumerate() {
        let (number, bytes) = *row;
        let taken = put_within(alloc, bytes.len(), number, bytes);
        let refused = put_within(alloc, bytes.len() - 1, number, &[]);
        let wanted = Some((false, bytes.len() - 1, true));
        if (taken, refused) != (Some((true, 0, true)), wanted) {
            return at;
        }
    }
    ROWS.len()
}

#[test]
fn numbers_put(rt: HostRuntime) {
    assert!(rt; passed(rt.alloc()) == ROWS.len());
}

/// Three places, split behind two: numbers are put into both parts, of which the back has too few
/// places for two bytes, and they are joined again. The answers, and the bytes.
fn put_and_joined(rt: &impl Wait, alloc: Global) -> Option<([bool; 3], [u8; 3])> {
    let window: ArcBytesMut = ArcSliceMut::try_with_capacity(alloc, 3).ok()?;
    let mut front: ArcBytesShared = window.into_shared().ok()?;
    front.check_split_off(2).ok()?;
    let Ok(mut back) = front.try_split_off(rt, 2) else {
        return None;
    };
    front.known_uncounted();
    let answers = [
        front.put_u16(0x0102).is_ok(),
        back.put_u16(0x0304).is_ok(),
        back.put_i8(-2).is_ok(),
    ];
    front.try_unsplit(back).ok()?;
    let mut bytes = [0; 3];
    front.try_copy_to_slice(&mut bytes).ok()?;
    Some((answers, bytes))
}

/// A part into which a number was put stands on its block still, so the two are joined.
#[test]
fn put_into_parts(rt: HostRuntime) {
    let told = put_and_joined(&rt, rt.alloc());
    assert!(rt; told == Some(([true, false, true], [1, 2, 0xfe])));
}
