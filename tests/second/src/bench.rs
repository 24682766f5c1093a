//! The text that the bench program writes.

use crate::limits::{BENCH_INPUT, BENCH_ROOM};
use crate::read::Sheet;
use crate::slips::Slip;
use std::fmt::Write;

const WRITTEN: &str = "a string takes every text";

pub fn bench<S: Slip>(slip: S, input: &[u8]) -> Vec<u8> {
    let decides = &input[..input.len().min(BENCH_INPUT)];
    let mut sheet = Sheet::blank(slip);
    let mut text = String::new();
    match sheet.open(decides) {
        Ok(()) => judge(&sheet, &mut text),
        Err(refusal) => writeln!(
            text,
            "sheet refused {} place {} skeleton {}",
            refusal.number, refusal.place, refusal.skeleton
        )
        .expect(WRITTEN),
    }
    text.into_bytes()
}

fn judge<S: Slip>(sheet: &Sheet<S>, text: &mut String) {
    let (terms, skeletons) = (sheet.terms.count, sheet.skeleton_count);
    writeln!(text, "sheet good terms {terms} skeletons {skeletons}").expect(WRITTEN);
    for (number, skeleton) in sheet.skeletons().iter().enumerate() {
        match sheet.first_open(skeleton) {
            None => writeln!(text, "skeleton {number} realized"),
            Some(node) => writeln!(
                text,
                "skeleton {number} open at {} {}",
                node.strand, node.position
            ),
        }
        .expect(WRITTEN);
    }
    if skeletons == 2 {
        maps(sheet, text);
    }
}

fn maps<S: Slip>(sheet: &Sheet<S>, text: &mut String) {
    let mut space = vec![0; BENCH_ROOM];
    match sheet.list((0, 1), &mut space) {
        Err(refusal) => writeln!(text, "maps 0 to 1 refused {}", refusal.number).expect(WRITTEN),
        Ok(count) => {
            writeln!(text, "maps 0 to 1: {count}").expect(WRITTEN);
            let strands = sheet.skeletons()[0].strand_count;
            for map in space[..count * strands].chunks_exact(strands) {
                line(map, text);
            }
        }
    }
}

fn line(map: &[u8], text: &mut String) {
    for (place, strand) in map.iter().enumerate() {
        let gap = if place > 0 { " " } else { "" };
        write!(text, "{gap}{strand}").expect(WRITTEN);
    }
    text.push('\n');
}
