//! A judge of protocol drawings on bench sheets, written from the papers alone so that another
//! judge can be compared with it.
//!
//! Every answer is one word, `tag + 256·x + 65536·y + 2^32·z`; a refusal has tag 0, x its number,
//! y the skeleton and z the place.

mod answer;
mod bench;
pub mod c;
mod check;
mod derive;
pub mod limits;
mod list;
mod matching;
mod questions;
mod read;
mod skeleton;
mod slips;
mod terms;
mod termset;
mod within;

pub use slips::SLIPS;

use slips::Straight;

/// Tag 1, x the skeletons, z the terms.
pub fn sheet(sheet: &[u8]) -> u64 {
    questions::sheet(Straight, sheet)
}

/// Is `t` carried only within `set` in `inside`? Tag 1 yes, 2 no.
pub fn within(sheet: &[u8], t: u8, inside: u8, set: &[u8]) -> u64 {
    questions::within(Straight, sheet, t, inside, set)
}

/// Is the term derivable before the reception? Tag 1 yes, 2 no.
pub fn derivable(sheet: &[u8], skeleton: u8, strand: u8, position: u8, term: u8) -> u64 {
    questions::derivable(Straight, sheet, skeleton, (strand, position), term)
}

/// Tag 1, z how many of the sheet's terms are derivable before the reception.
pub fn reach(sheet: &[u8], skeleton: u8, strand: u8, position: u8) -> u64 {
    questions::reach(Straight, sheet, skeleton, (strand, position))
}

/// Tag 1 realized; 2 open, x the strand and y the position of the first open reception.
pub fn realized(sheet: &[u8], skeleton: u8) -> u64 {
    questions::realized(Straight, sheet, skeleton)
}

/// Tag 1 yes, with the images written; 2 no, x the first broken rule.
pub fn map(sheet: &[u8], source: u8, target: u8, map: &[u8], images: &mut [u8]) -> u64 {
    questions::map(Straight, sheet, (source, target), map, images)
}

/// Tag 1, z the number of maps, which are written end to end.
pub fn list(sheet: &[u8], source: u8, target: u8, space: &mut [u8]) -> u64 {
    questions::list(Straight, sheet, (source, target), space)
}

/// The text that the bench program writes for this input.
pub fn bench(input: &[u8]) -> Vec<u8> {
    bench::bench(Straight, input)
}

/// How many rounds of decomposing added something before the reception; 0 if refused.
pub fn passes(sheet: &[u8], skeleton: u8, strand: u8, position: u8) -> u32 {
    questions::passes(sheet, skeleton, (strand, position))
}

/// How many bodies were opened before the reception with a key that was not held but had to be
/// put together from parts; 0 if refused.
pub fn built_keys(sheet: &[u8], skeleton: u8, strand: u8, position: u8) -> u32 {
    questions::built_keys(sheet, skeleton, (strand, position))
}

/// The same questions with a slip of [`SLIPS`] planted; 0 plants none.
pub mod slipped {
    use crate::questions;
    use crate::slips::Planted;

    pub fn sheet(slip: u8, sheet: &[u8]) -> u64 {
        questions::sheet(Planted(slip), sheet)
    }

    pub fn within(slip: u8, sheet: &[u8], t: u8, inside: u8, set: &[u8]) -> u64 {
        questions::within(Planted(slip), sheet, t, inside, set)
    }

    pub fn derivable(
        slip: u8,
        sheet: &[u8],
        skeleton: u8,
        strand: u8,
        position: u8,
        term: u8,
    ) -> u64 {
        let node = (strand, position);
        questions::derivable(Planted(slip), sheet, skeleton, node, term)
    }

    pub fn reach(slip: u8, sheet: &[u8], skeleton: u8, strand: u8, position: u8) -> u64 {
        questions::reach(Planted(slip), sheet, skeleton, (strand, position))
    }

    pub fn realized(slip: u8, sheet: &[u8], skeleton: u8) -> u64 {
        questions::realized(Planted(slip), sheet, skeleton)
    }

    pub fn map(
        slip: u8,
        sheet: &[u8],
        source: u8,
        target: u8,
        map: &[u8],
        images: &mut [u8],
    ) -> u64 {
        questions::map(Planted(slip), sheet, (source, target), map, images)
    }

    pub fn list(slip: u8, sheet: &[u8], source: u8, target: u8, space: &mut [u8]) -> u64 {
        questions::list(Planted(slip), sheet, (source, target), space)
    }

    pub fn bench(slip: u8, input: &[u8]) -> Vec<u8> {
        crate::bench::bench(Planted(slip), input)
    }
}
