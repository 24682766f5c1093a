//! Sheets to try on a judge of protocol drawings: a seeded stream of good and damaged sheets,
//! questions about each of them, and real protocols with the verdicts of their sources.

pub mod analysis;
pub mod builder;
mod damage;
mod faults;
mod generate;
mod good;
pub mod judge;
mod keys;
mod limits;
mod maps;
pub mod protocols;
mod questions;
mod records;
mod rng;
pub mod stored;
pub mod tally;

pub use generate::{generate, is_damaged};
pub use questions::{pair_questions, questions, Question};
pub use rng::Rng;

/// The 105-byte sheet of document 01, from 000 section 5.1.
pub fn example() -> Vec<u8> {
    const HEX: &str = "4253 01 / 544d 050000 / 544d 030000 / 544d 060000 / 544d 060100 /
        544d 080200 / 544d 080300 / 544d 0b0004 / 544d 0b0603 / 544d 0b0100 / 534b /
        5354 02 0007 0108 / 4e4f 04 / 4e4f 05 / 554f 00 / 534b / 5354 02 0007 0108 /
        5354 02 0107 0008 / 4f52 00000100 / 4f52 01010001 / 4e4f 04 / 4e4f 05 / 554f 00 / 454e";
    let digits: Vec<u32> = HEX.chars().filter_map(|sign| sign.to_digit(16)).collect();
    let byte = |pair: &[u32]| (16 * pair[0] + pair[1]) as u8;
    digits.chunks_exact(2).map(byte).collect()
}

/// The longest good sheet, 2,581 bytes.
pub fn longest() -> Vec<u8> {
    limits::longest().bytes()
}

/// Sheets 0 to 49 of six strands against six, for timing the list.
pub fn six_by_six(number: usize) -> Vec<u8> {
    maps::six_by_six(number).bytes()
}

/// A message with shared parts, one level less deep than it has terms.
pub fn shared(terms: usize) -> Vec<u8> {
    keys::shared(terms).bytes()
}

/// A chain of 25 to 190 terms in which each key found frees one key more, and no pass over the
/// terms more than two.
pub fn chain(terms: usize) -> Vec<u8> {
    keys::chain(terms, keys::Numbering::ByTurns).bytes()
}

/// Two skeletons with exactly 8,192 maps, which fill the bench's space.
pub fn just_fitting() -> Vec<u8> {
    maps::just_fitting().bytes()
}

/// Two skeletons with 8,193 maps, one more than the bench has room for.
pub fn one_too_many() -> Vec<u8> {
    maps::one_too_many().bytes()
}
