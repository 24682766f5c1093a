//! Good sheets damaged: cut at every offset, every byte changed, records dropped, doubled and
//! exchanged. The walks go through all places of some fixed sheets, one place a number.

use std::sync::OnceLock;

use crate::records::{joined, records};
use crate::rng::Rng;
use crate::{good, keys, maps, protocols};

/// The sheets that the walks go over.
fn walked() -> &'static [Vec<u8>] {
    static SHEETS: OnceLock<Vec<Vec<u8>>> = OnceLock::new();
    SHEETS.get_or_init(|| {
        let random = |number| good::random(&mut Rng::of(17, number)).bytes();
        let sheets = [
            crate::example(),
            protocols::named("lowe-attack"),
            protocols::named("kerberos-attack"),
            protocols::named("exercise"),
        ];
        sheets.into_iter().chain((0..4).map(random)).collect()
    })
}

/// A sheet and a place below its measure: the next place of so many rounds of the walk, or any
/// place of a fresh sheet once the walk is over.
fn place(
    rng: &mut Rng,
    number: usize,
    rounds: usize,
    measure: fn(&[u8]) -> usize,
) -> (Vec<u8>, usize) {
    let mut left = number;
    for sheet in (0..rounds).flat_map(|_| walked()) {
        if left < measure(sheet) {
            return (sheet.clone(), left);
        }
        left -= measure(sheet);
    }
    let sheet = fresh(rng);
    let place = rng.below(measure(&sheet));
    (sheet, place)
}

fn fresh(rng: &mut Rng) -> Vec<u8> {
    match rng.below(4) {
        0 => keys::locks(rng).bytes(),
        1 => maps::sorts(rng).bytes(),
        _ => good::random(rng).bytes(),
    }
}

pub fn cut(rng: &mut Rng, number: usize) -> Vec<u8> {
    let (mut sheet, offset) = place(rng, number, 1, <[u8]>::len);
    sheet.truncate(offset);
    sheet
}

pub fn changed_byte(rng: &mut Rng, number: usize) -> Vec<u8> {
    let (mut sheet, offset) = place(rng, number, 2, <[u8]>::len);
    let old = sheet[offset];
    sheet[offset] = match rng.below(8) {
        0 => 0,
        1 => old.wrapping_add(1),
        2 => old.wrapping_sub(1),
        3 => old ^ (1 << rng.below(8)),
        4 => rng.byte(),
        5 => 255,
        _ => rng.below(16) as u8,
    };
    if sheet[offset] == old {
        sheet[offset] = !old;
    }
    sheet
}

/// A record dropped, doubled, moved or exchanged with another.
pub fn changed_records(rng: &mut Rng, number: usize) -> Vec<u8> {
    let (sheet, place) = place(rng, number, 1, |sheet| 4 * records(sheet).len());
    let mut parts = records(&sheet);
    let record = place / 4;
    match place % 4 {
        0 => {
            parts.remove(record);
        }
        1 => {
            let again = parts[record].clone();
            let place = if rng.chance(1, 2) {
                record
            } else {
                rng.below(parts.len())
            };
            parts.insert(place, again);
        }
        2 => {
            let next = (record + 1) % parts.len();
            parts.swap(record, next);
        }
        _ => {
            let other = rng.below(parts.len());
            parts.swap(record, other);
        }
    }
    joined(&parts)
}

#[cfg(test)]
mod tests {
    use super::*;

    /// Each walk has one or two numbers in twenty, so it is over within 50,000 sheets.
    #[test]
    fn the_walks_come_to_their_end() {
        let bytes: usize = walked().iter().map(Vec::len).sum();
        let parts: usize = walked().iter().map(|sheet| records(sheet).len()).sum();
        assert!(bytes <= 2500);
        assert!(4 * parts <= 2500);
    }
}
