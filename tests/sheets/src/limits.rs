//! Limits reached and passed by one.

use crate::builder::{kind, limit, receive, send, Event, Sheet, Skeleton};
use crate::keys::fill_with_tags;
use crate::records::{joined, places, records};
use crate::rng::Rng;

/// The longest good sheet: 3 bytes, 200 terms of 5, two skeletons of 788, and EN make 2,581.
///
/// Strands 0 and 1 send texts 0 to 31, each of them unique; 2 and 3 receive them encrypted
/// under the keys 0 to 31, which never originate; 4 and 5 send tags and receive texts by turns.
pub fn longest() -> Sheet {
    let mut sheet = Sheet::new();
    let all = 0..limit::ATOMS as u8;
    let texts: Vec<u8> = all
        .clone()
        .map(|at| sheet.term(kind::TEXT, at, 0))
        .collect();
    let keys: Vec<u8> = all.map(|at| sheet.term(kind::SKEY, at, 0)).collect();
    let closed: Vec<u8> = (0..limit::ATOMS)
        .map(|at| sheet.enc(&[texts[at]], keys[at]))
        .collect();
    fill_with_tags(&mut sheet, limit::TERMS);
    let skeleton = fullest_skeleton(&texts, &keys, &closed);
    sheet.skeletons = vec![skeleton.clone(), skeleton];
    sheet
}

fn fullest_skeleton(texts: &[u8], keys: &[u8], closed: &[u8]) -> Skeleton {
    let mut skeleton = Skeleton::default();
    for part in texts.chunks(limit::HEIGHT) {
        let sends: Vec<Event> = part.iter().map(|&text| send(text)).collect();
        skeleton.strand(&sends);
    }
    for part in closed.chunks(limit::HEIGHT) {
        let receptions: Vec<Event> = part.iter().map(|&message| receive(message)).collect();
        skeleton.strand(&receptions);
    }
    let tag = closed[limit::ATOMS - 1] + 1;
    let turns = |at: usize| {
        if at.is_multiple_of(2) {
            send(tag)
        } else {
            receive(texts[at])
        }
    };
    for _ in 0..2 {
        skeleton.strand(&(0..limit::HEIGHT).map(turns).collect::<Vec<Event>>());
    }
    for position in 0..limit::HEIGHT as u8 {
        skeleton.before((0, position), (2, position));
        skeleton.before((1, position), (3, position));
        skeleton.before((0, position), (4, position | 1));
        skeleton.before((0, position), (5, position | 1));
    }
    skeleton.never(keys).once(texts);
    skeleton
}

/// One sheet at a limit or just past it; `number` goes through all of them by turns.
pub fn at_limit(rng: &mut Rng, number: usize) -> Vec<u8> {
    let side = rng.below(2);
    match number % 16 {
        0 => with_terms(limit::TERMS + number / 16 % 2).bytes(),
        1 => with_height(rng, number / 16),
        2 => with_records(rng, side, b"OR", limit::ORDERS, number / 16),
        3 => with_records(rng, side, b"NO", limit::ATOMS, number / 16),
        4 => with_records(rng, side, b"UO", limit::ATOMS, number / 16),
        5 => with_records(rng, side, b"ST", limit::STRANDS, number / 16),
        6 => with_skeletons(1 + number / 16 % 3).bytes(),
        7 => longest().bytes(),
        8 => followed(rng, longest().bytes()),
        9 => followed(rng, with_skeletons(1).bytes()),
        10 => worn_longest(rng),
        11 => nothing_after(rng, number / 16),
        12 => stuffed_longest(rng),
        13 => small(number / 16),
        14 => endless(rng),
        _ => varied_longest(rng),
    }
}

/// A good sheet with this many terms, one more than may be included.
fn with_terms(count: usize) -> Sheet {
    let mut sheet = Sheet::new();
    let text = sheet.text("x");
    fill_with_tags(&mut sheet, count);
    sheet.skeleton().strand(&[send(text)]);
    sheet
}

fn with_skeletons(count: usize) -> Sheet {
    let mut sheet = Sheet::new();
    let text = sheet.text("x");
    for _ in 0..count {
        sheet.skeleton().strand(&[send(text)]);
    }
    sheet
}

/// A strand of height 0, 1, 16, 17 or 255 among others.
fn with_height(rng: &mut Rng, number: usize) -> Vec<u8> {
    let mut sheet = with_skeletons(rng.between(1, 2));
    let text = sheet.text("x");
    let height = [0, 1, limit::HEIGHT, limit::HEIGHT + 1, 255][number % 5];
    let side = rng.below(sheet.skeletons.len());
    let strands = &mut sheet.skeletons[side].strands;
    let place = rng.below(strands.len() + 1);
    strands.insert(place, vec![send(text); height]);
    sheet.bytes()
}

/// As many records of a kind as are allowed in one skeleton, or one more, repeats among them.
fn with_records(rng: &mut Rng, side: usize, mark: &[u8; 2], most: usize, number: usize) -> Vec<u8> {
    let mut sheet = Sheet::new();
    let texts: Vec<u8> = (0..36).map(|at| sheet.term(kind::TEXT, at, 0)).collect();
    let keys: Vec<u8> = (0..36).map(|at| sheet.term(kind::SKEY, at, 0)).collect();
    for _ in 0..2 {
        let skeleton = sheet.skeleton();
        skeleton.strand(&texts[..16].iter().map(|&t| send(t)).collect::<Vec<_>>());
        skeleton.strand(&texts[16..32].iter().map(|&t| send(t)).collect::<Vec<_>>());
        skeleton.strand(&[receive(texts[0]), receive(texts[1])]);
        skeleton.before((0, 1), (2, 0));
    }
    let used: Vec<u8> = keys
        .iter()
        .map(|&key| sheet.enc(&[texts[0]], key))
        .collect();
    let whole = sheet.cat(&used);
    let skeleton = &mut sheet.skeletons[side];
    let count = most + number % 2;
    match mark {
        b"OR" => skeleton.orders.resize(count, ((0, 1), (2, 0))),
        b"NO" => {
            skeleton.strands[2].push(receive(whole));
            let repeats = rng.below(8);
            skeleton.non_originating = (0..count)
                .map(|at| keys[at.saturating_sub(repeats)])
                .collect();
        }
        b"UO" => {
            let spread = rng.between(1, 32);
            skeleton.unique = (0..count).map(|at| texts[at % spread]).collect();
        }
        _ => skeleton.strands.resize(count, vec![send(texts[3])]),
    }
    sheet.bytes()
}

/// A sheet with bytes behind its end, at times more than a bench program reads.
fn followed(rng: &mut Rng, mut sheet: Vec<u8>) -> Vec<u8> {
    let more = *rng.pick(&[1, 2, 5, 4096, 5000]);
    let filling = *rng.pick(&[0, b'E', b'T', 255]);
    sheet.resize(sheet.len() + more, filling);
    sheet
}

/// The longest sheet with one record doubled.
fn worn_longest(rng: &mut Rng) -> Vec<u8> {
    let mut parts = records(&longest().bytes());
    let place = rng.below(parts.len());
    let twice = parts[place].clone();
    parts.insert(place, twice);
    joined(&parts)
}

/// The longest sheet with a copy of any record at any place, mostly where one kind of record
/// gives way to the next: one too many where its kind is still allowed, else out of order.
fn stuffed_longest(rng: &mut Rng) -> Vec<u8> {
    let mut parts = records(&longest().bytes());
    let mark = *rng.pick(&[b"TM", b"SK", b"ST", b"OR", b"NO", b"UO"]);
    let copy = parts[*rng.pick(&places(&parts, mark))].clone();
    let kind_changes = |at: &usize| parts[*at][..2] != parts[at - 1][..2];
    let turns: Vec<usize> = (1..parts.len()).filter(kind_changes).collect();
    let place = match rng.below(3) {
        0 => rng.below(parts.len()),
        _ => *rng.pick(&turns),
    };
    parts.insert(place, copy);
    joined(&parts)
}

/// One record too many of which the mark is the last thing on the sheet, or one more byte.
fn nothing_after(rng: &mut Rng, number: usize) -> Vec<u8> {
    let (sheet, mark) = match number % 6 {
        0 => (with_terms(limit::TERMS).bytes(), b"TM"),
        1 => (with_records(rng, 1, b"ST", limit::STRANDS, 0), b"ST"),
        2 => (with_records(rng, 1, b"OR", limit::ORDERS, 0), b"OR"),
        3 => (with_records(rng, 1, b"NO", limit::ATOMS, 0), b"NO"),
        4 => (with_records(rng, 1, b"UO", limit::ATOMS, 0), b"UO"),
        _ => (with_skeletons(2).bytes(), b"SK"),
    };
    let mut parts = records(&sheet);
    let last = match mark {
        b"SK" => parts.len() - 2,
        _ => *places(&parts, mark).last().expect("a record of this kind"),
    };
    parts.truncate(last + 1);
    parts.push(mark.to_vec());
    parts.push(vec![1; rng.below(2)]);
    joined(&parts)
}

/// The least sheets there are.
fn small(number: usize) -> Vec<u8> {
    let sheets: [&[u8]; 12] = [
        b"",
        b"B",
        b"BS",
        b"BS\x01",
        b"BS\x01EN",
        b"BS\x01SK",
        b"BS\x01SKEN",
        b"BS\x01SKST",
        b"BS\x01SKST\x01",
        b"BS\x02",
        b"BS\x01TM\x00\x00\x00SKST\x01\x01\x00EN",
        b"EN",
    ];
    sheets[number % sheets.len()].to_vec()
}

/// More than 4,096 bytes of records that never end.
fn endless(rng: &mut Rng) -> Vec<u8> {
    let mut sheet = with_skeletons(1).bytes();
    sheet.truncate(sheet.len() - 2);
    let kinds: [&[u8]; 3] = [b"UO\x00", b"OR\x00\x00\x00\x00", b"ST\x01\x00\x00"];
    let record = rng.pick(&kinds);
    while sheet.len() <= limit::READ + 10 {
        sheet.extend_from_slice(record);
    }
    sheet
}

/// The longest sheet with other terms in its events, which may or may not leave it good.
fn varied_longest(rng: &mut Rng) -> Vec<u8> {
    let mut sheet = longest();
    for _ in 0..rng.between(1, 4) {
        let side = rng.below(2);
        let strand = rng.below(limit::STRANDS);
        let position = rng.below(limit::HEIGHT);
        sheet.skeletons[side].strands[strand][position].term = rng.below(limit::TERMS) as u8;
    }
    sheet.bytes()
}
