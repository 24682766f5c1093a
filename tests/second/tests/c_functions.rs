//! The functions for C give the same words and write the same bytes.

mod common;

use common::*;
use second::c::*;
use std::ptr::{null, null_mut};

#[test]
fn the_same_answers() {
    let sheet = blanchet();
    let (start, length) = (sheet.as_ptr(), sheet.len());
    let set = [6u8];
    // P1 to P4, and s carried only within term 6.
    unsafe {
        assert_eq!(second_sheet(start, length), good(9, 2));
        let within = second_within(start, length, 0, 7, set.as_ptr(), set.len());
        assert_eq!(within, YES);
        assert_eq!(second_derivable(start, length, 0, 0, 1, 8), NO);
        assert_eq!(second_reach(start, length, 1, 0, 1), reach(5));
        assert_eq!(second_realized(start, length, 0), open_at(0, 1));
    }
}

#[test]
fn the_same_bytes() {
    let sheet = blanchet();
    let (start, length) = (sheet.as_ptr(), sheet.len());
    let map = [0u8];
    let mut images = [CANARY; 11];
    let mut space = [CANARY; 3];
    unsafe {
        let answer = second_map(
            start,
            length,
            0,
            1,
            map.as_ptr(),
            1,
            images.as_mut_ptr(),
            10,
        );
        assert_eq!(answer, YES);
        let answer = second_list(start, length, 0, 1, space.as_mut_ptr(), 2);
        assert_eq!(answer, maps(1));
    }
    assert_eq!(
        images,
        [0, 1, 2, 3, 255, 255, 255, 255, 255, CANARY, CANARY]
    );
    assert_eq!(space, [0, CANARY, CANARY]);
}

/// "length 0 allows a null pointer".
#[test]
fn null_pointers() {
    let sheet = blanchet();
    let (start, length) = (sheet.as_ptr(), sheet.len());
    unsafe {
        assert_eq!(second_sheet(null(), 0), refused(1, 0, 0));
        assert_eq!(second_within(start, length, 0, 7, null(), 0), NO);
        let answer = second_map(start, length, 0, 1, null(), 0, null_mut(), 0);
        assert_eq!(answer, refused(16, 0, 0));
        let answer = second_list(start, length, 0, 1, null_mut(), 0);
        assert_eq!(answer, refused(16, 0, 0));
    }
}
