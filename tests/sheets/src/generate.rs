//! The stream of sheets. Sheet `index` of a seed can be made again from these two numbers.

use crate::builder::{limit, Sheet};
use crate::good::lose_one;
use crate::rng::Rng;
use crate::{damage, faults, good, keys, limits, maps, protocols};

/// The families take turns; within each of them the sheets are numbered again.
const FAMILIES: u64 = 20;

/// Sheet number `index` of the stream of `seed`.
pub fn generate(seed: u64, index: u64) -> Vec<u8> {
    let rng = &mut Rng::of(seed, index);
    let number = (index / FAMILIES) as usize;
    match index % FAMILIES {
        0 => damage::cut(rng, number),
        1 => damage::changed_byte(rng, 2 * number),
        2 => damage::changed_byte(rng, 2 * number + 1),
        3 => damage::changed_records(rng, number),
        4 => limits::at_limit(rng, number),
        5 => one_fault(rng, number),
        6 => two_faults(rng, 2 * number),
        7 => two_faults(rng, 2 * number + 1),
        8..=10 => good::random(rng).bytes(),
        11 | 12 => keys::locks(rng).bytes(),
        13 => deep(rng, number),
        14 | 15 => maps::any_against_any(rng).bytes(),
        16 | 17 => maps::sorts(rng).bytes(),
        18 => protocol(rng, number),
        _ => crowded(rng, number),
    }
}

/// Sheets that were good before something was done to them.
pub fn is_damaged(index: u64) -> bool {
    matches!(index % FAMILIES, 0..=3 | 5..=7)
}

fn one_fault(rng: &mut Rng, number: usize) -> Vec<u8> {
    let sheet = sound(rng);
    faults::with_faults(rng, &sheet, &[number % faults::REFUSALS + 1])
}

/// All ordered pairs of faults by turns.
fn two_faults(rng: &mut Rng, number: usize) -> Vec<u8> {
    let sheet = sound(rng);
    let first = number % faults::REFUSALS + 1;
    let second = number / faults::REFUSALS % faults::REFUSALS + 1;
    faults::with_faults(rng, &sheet, &[second, first])
}

/// A good sheet to plant faults in.
fn sound(rng: &mut Rng) -> Vec<u8> {
    match rng.below(6) {
        0 => maps::sorts(rng).bytes(),
        1 => crate::example(),
        2 => rng.pick(protocols::all()).sheet.clone(),
        _ => good::random(rng).bytes(),
    }
}

fn deep(rng: &mut Rng, number: usize) -> Vec<u8> {
    match number % 4 {
        0 => {
            use keys::Numbering::*;
            let numbering = *rng.pick(&[FirstToLast, LastToFirst, ByTurns]);
            keys::chain(rng.between(25, 190), numbering).bytes()
        }
        1 => keys::shared(rng.between(3, limit::TERMS)).bytes(),
        _ => keys::tower(rng).bytes(),
    }
}

/// A real protocol, as it is or with an order or an assumption lost or changed.
fn protocol(rng: &mut Rng, number: usize) -> Vec<u8> {
    let all = protocols::all();
    let mut sheet = Sheet::read(&all[number % all.len()].sheet);
    for _ in 0..rng.below(3) {
        let side = rng.below(sheet.skeletons.len());
        let parts = sheet.terms.len();
        let skeleton = &mut sheet.skeletons[side];
        match rng.below(5) {
            0 => lose_one(rng, &mut skeleton.orders),
            1 => lose_one(rng, &mut skeleton.non_originating),
            2 => lose_one(rng, &mut skeleton.unique),
            3 => {
                let strand = rng.below(skeleton.strands.len());
                let position = rng.below(skeleton.strands[strand].len());
                skeleton.strands[strand][position].term = rng.below(parts) as u8;
            }
            _ => sheet.skeletons.swap(0, side),
        }
    }
    sheet.bytes()
}

/// Sheets with very many maps, and with as many as fit.
fn crowded(rng: &mut Rng, number: usize) -> Vec<u8> {
    let sheet = match number % 24 {
        0 => maps::just_fitting(),
        1 => maps::one_too_many(),
        2 => maps::six_by_six(number / 24 % 50),
        3..=11 => maps::any_against_any(rng),
        _ => good::random(rng),
    };
    keys::renumbered(rng, &sheet).bytes()
}
