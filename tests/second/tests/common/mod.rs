//! Sheets written the way they are read: marks as letters, fields as numbers.
//!
//! Lengths, for working out places: BS 3, TM 5, SK 2, ST 3 + 2h, OR 6, NO and UO 3, EN 2.
#![allow(dead_code)]

/// The bytes of a sheet; a word that is no number stands for its letters.
pub fn bytes(text: &str) -> Vec<u8> {
    let mut all = Vec::new();
    for word in text.split_whitespace() {
        if word.starts_with(|first: char| first.is_ascii_digit()) {
            all.push(word.parse().expect("a field is a number below 256"));
        } else {
            all.extend_from_slice(word.as_bytes());
        }
    }
    all
}

/// The same records a number of times.
pub fn times(count: usize, records: &str) -> String {
    format!(" {records} ").repeat(count)
}

/// So many different tags.
pub fn tags(count: usize) -> String {
    (0..count).map(|a| format!(" TM 0 {a} 0 ")).collect()
}

pub const YES: u64 = 1;
pub const NO: u64 = 2;

pub fn word(tag: u64, x: u64, y: u64, z: u64) -> u64 {
    tag + 256 * x + 65_536 * y + (z << 32)
}

pub fn good(terms: u64, skeletons: u64) -> u64 {
    word(1, skeletons, 0, terms)
}

pub fn refused(number: u64, place: u64, skeleton: u64) -> u64 {
    word(0, number, skeleton, place)
}

pub fn reach(count: u64) -> u64 {
    word(1, 0, 0, count)
}

pub fn open_at(strand: u64, position: u64) -> u64 {
    word(2, strand, position, 0)
}

pub fn broken(rule: u64) -> u64 {
    word(2, rule, 0, 0)
}

pub fn maps(count: u64) -> u64 {
    word(1, 0, 0, count)
}

/// Lent memory is filled with this, so that whatever is written shows.
pub const CANARY: u8 = 0xC5;

/// All maps from a skeleton of N strands, with the space beyond them seen to be untouched.
pub fn listed<const N: usize>(sheet: &[u8], source: u8, target: u8) -> Vec<[u8; N]> {
    let mut space = vec![CANARY; 6 * 46_656];
    let answer = second::list(sheet, source, target, &mut space);
    let count = (answer >> 32) as usize;
    assert_eq!(answer, maps(count as u64), "the list is refused");
    let (written, beyond) = space.split_at(count * N);
    assert!(beyond.iter().all(|&byte| byte == CANARY));
    let whole = |map: &[u8]| map.try_into().expect("N bytes");
    written.chunks(N).map(whole).collect()
}

/// The 105 bytes of Blanchet's protocol (000, section 5.1): initiator's view, then its shape.
///
/// Terms: 0 s, 1 d, 2 a, 3 b, 4 inverse of a, 5 inverse of b, 6 s under 4, 7 that under b,
/// 8 d under s.
pub fn blanchet() -> Vec<u8> {
    bytes(
        "BS 1 TM 5 0 0 TM 3 0 0 TM 6 0 0 TM 6 1 0 TM 8 2 0 TM 8 3 0 TM 11 0 4 TM 11 6 3 TM 11 1 0
         SK ST 2 0 7 1 8 NO 4 NO 5 UO 0
         SK ST 2 0 7 1 8 ST 2 1 7 0 8 OR 0 0 1 0 OR 1 1 0 1 NO 4 NO 5 UO 0
         EN",
    )
}
