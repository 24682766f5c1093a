//! The proved functions. Each takes any bytes, so the calls are safe: a slice is a pointer and a length, and an empty one
//! has the null pointer.
#![allow(dead_code)]

use std::ptr::{null, null_mut};

extern "C" {
    fn judge_sheet(sheet: *const u8, length: usize) -> u64;
    fn judge_within(
        sheet: *const u8,
        length: usize,
        term: u8,
        inside: u8,
        set: *const u8,
        set_length: usize,
    ) -> u64;
    fn judge_derivable(
        sheet: *const u8,
        length: usize,
        skeleton: u8,
        strand: u8,
        position: u8,
        term: u8,
    ) -> u64;
    fn judge_reach(sheet: *const u8, length: usize, skeleton: u8, strand: u8, position: u8) -> u64;
    fn judge_realized(sheet: *const u8, length: usize, skeleton: u8) -> u64;
    fn judge_map(
        sheet: *const u8,
        length: usize,
        source: u8,
        target: u8,
        map: *const u8,
        map_length: usize,
        images: *mut u8,
        images_length: usize,
    ) -> u64;
    fn judge_list(
        sheet: *const u8,
        length: usize,
        source: u8,
        target: u8,
        space: *mut u8,
        space_length: usize,
    ) -> u64;
}

fn start(bytes: &[u8]) -> *const u8 {
    if bytes.is_empty() {
        null()
    } else {
        bytes.as_ptr()
    }
}

fn start_of_lent(bytes: &mut [u8]) -> *mut u8 {
    if bytes.is_empty() {
        null_mut()
    } else {
        bytes.as_mut_ptr()
    }
}

pub fn sheet(sheet: &[u8]) -> u64 {
    unsafe { judge_sheet(start(sheet), sheet.len()) }
}

pub fn within(sheet: &[u8], term: u8, inside: u8, set: &[u8]) -> u64 {
    unsafe {
        judge_within(
            start(sheet),
            sheet.len(),
            term,
            inside,
            start(set),
            set.len(),
        )
    }
}

pub fn derivable(sheet: &[u8], skeleton: u8, strand: u8, position: u8, term: u8) -> u64 {
    unsafe { judge_derivable(start(sheet), sheet.len(), skeleton, strand, position, term) }
}

pub fn reach(sheet: &[u8], skeleton: u8, strand: u8, position: u8) -> u64 {
    unsafe { judge_reach(start(sheet), sheet.len(), skeleton, strand, position) }
}

pub fn realized(sheet: &[u8], skeleton: u8) -> u64 {
    unsafe { judge_realized(start(sheet), sheet.len(), skeleton) }
}

pub fn map(sheet: &[u8], source: u8, target: u8, map: &[u8], images: &mut [u8]) -> u64 {
    unsafe {
        judge_map(
            start(sheet),
            sheet.len(),
            source,
            target,
            start(map),
            map.len(),
            start_of_lent(images),
            images.len(),
        )
    }
}

pub fn list(sheet: &[u8], source: u8, target: u8, space: &mut [u8]) -> u64 {
    unsafe {
        judge_list(
            start(sheet),
            sheet.len(),
            source,
            target,
            start_of_lent(space),
            space.len(),
        )
    }
}

/// The proved judge.
pub struct Proved;

sheets::judge_by!(Proved, crate::proved);
