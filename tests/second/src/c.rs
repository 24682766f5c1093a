//! The questions for C: each slice is a pointer and a length, and length 0 allows a null
//! pointer.

use std::slice;

/// # Safety
/// `start` points to `length` bytes, or `length` is 0.
unsafe fn given<'a>(start: *const u8, length: usize) -> &'a [u8] {
    match length {
        0 => &[],
        _ => slice::from_raw_parts(start, length),
    }
}

/// # Safety
/// `start` points to `length` bytes lent to nobody else, or `length` is 0.
unsafe fn lent<'a>(start: *mut u8, length: usize) -> &'a mut [u8] {
    match length {
        0 => &mut [],
        _ => slice::from_raw_parts_mut(start, length),
    }
}

/// # Safety
/// Every pointer points to as many bytes as the length after it says.
#[no_mangle]
pub unsafe extern "C" fn second_sheet(sheet: *const u8, sheet_length: usize) -> u64 {
    crate::sheet(given(sheet, sheet_length))
}

/// # Safety
/// Every pointer points to as many bytes as the length after it says.
#[no_mangle]
pub unsafe extern "C" fn second_within(
    sheet: *const u8,
    sheet_length: usize,
    t: u8,
    inside: u8,
    set: *const u8,
    set_length: usize,
) -> u64 {
    crate::within(
        given(sheet, sheet_length),
        t,
        inside,
        given(set, set_length),
    )
}

/// # Safety
/// Every pointer points to as many bytes as the length after it says.
#[no_mangle]
pub unsafe extern "C" fn second_derivable(
    sheet: *const u8,
    sheet_length: usize,
    skeleton: u8,
    strand: u8,
    position: u8,
    term: u8,
) -> u64 {
    let sheet = given(sheet, sheet_length);
    crate::derivable(sheet, skeleton, strand, position, term)
}

/// # Safety
/// Every pointer points to as many bytes as the length after it says.
#[no_mangle]
pub unsafe extern "C" fn second_reach(
    sheet: *const u8,
    sheet_length: usize,
    skeleton: u8,
    strand: u8,
    position: u8,
) -> u64 {
    crate::reach(given(sheet, sheet_length), skeleton, strand, position)
}

/// # Safety
/// Every pointer points to as many bytes as the length after it says.
#[no_mangle]
pub unsafe extern "C" fn second_realized(
    sheet: *const u8,
    sheet_length: usize,
    skeleton: u8,
) -> u64 {
    crate::realized(given(sheet, sheet_length), skeleton)
}

/// # Safety
/// Every pointer points to as many bytes as the length after it says, and no two overlap.
#[no_mangle]
pub unsafe extern "C" fn second_map(
    sheet: *const u8,
    sheet_length: usize,
    source: u8,
    target: u8,
    map: *const u8,
    map_length: usize,
    images: *mut u8,
    images_length: usize,
) -> u64 {
    crate::map(
        given(sheet, sheet_length),
        source,
        target,
        given(map, map_length),
        lent(images, images_length),
    )
}

/// # Safety
/// Every pointer points to as many bytes as the length after it says, and no two overlap.
#[no_mangle]
pub unsafe extern "C" fn second_list(
    sheet: *const u8,
    sheet_length: usize,
    source: u8,
    target: u8,
    space: *mut u8,
    space_length: usize,
) -> u64 {
    let space = lent(space, space_length);
    crate::list(given(sheet, sheet_length), source, target, space)
}
