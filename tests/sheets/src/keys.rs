//! Sheets rich in derivations: chains in which each key found opens the next message, keys of
//! every make, and messages whose parts are shared many levels deep.

use crate::analysis::Parts;
use crate::builder::{kind, limit, receive, send, Event, Sheet, Skeleton};
use crate::good;
use crate::rng::Rng;

/// In which order the links of a chain are numbered, by rising number.
#[derive(Clone, Copy)]
pub enum Numbering {
    /// The link to open first has the lowest number.
    FirstToLast,
    /// The link to open first has the highest number.
    LastToFirst,
    /// Every other link comes first, so that no pass over the terms, rising or falling, opens
    /// more than two of them.
    ByTurns,
}

/// A chain of exactly `terms` terms, from 25 to 190.
///
/// Key j is the j-fold hash of a non-originating text, so no key can be made from a higher one.
/// The highest key is sent in the clear, and link j carries key j-1 under key j: each key that
/// is found opens one link more.
pub fn chain(terms: usize, numbering: Numbering) -> Sheet {
    assert!((25..=190).contains(&terms));
    let highest = terms / 2;
    let mut sheet = Sheet::new();
    let secret = sheet.text("secret");
    let mut keys = vec![secret];
    for below in 0..highest {
        keys.push(sheet.hash(keys[below]));
    }
    let mut links: Vec<usize> = (2..=highest).rev().collect();
    match numbering {
        Numbering::FirstToLast => {}
        Numbering::LastToFirst => links.reverse(),
        Numbering::ByTurns => links.sort_by_key(|link| link % 2),
    }
    let close = |link: usize| sheet.enc(&[keys[link - 1]], keys[link]);
    let mut messages: Vec<u8> = links.into_iter().map(close).collect();
    messages.push(keys[highest]);
    fill_with_tags(&mut sheet, terms);
    let skeleton = spread(&messages, keys[1]);
    sheet.skeletons.push(skeleton);
    sheet.skeletons[0].never(&[secret]);
    sheet
}

/// Adds tags until the sheet has this many terms.
pub fn fill_with_tags(sheet: &mut Sheet, terms: usize) {
    while sheet.terms.len() < terms {
        let number = sheet.terms.len() as u8;
        sheet.term(kind::TAG, number, 0);
    }
}

/// The messages sent over as many strands as they need, all of them before the last strand's
/// reception of `asked`.
pub fn spread(messages: &[u8], asked: u8) -> Skeleton {
    let mut skeleton = Skeleton::default();
    for part in messages.chunks(limit::HEIGHT) {
        let sends: Vec<Event> = part.iter().map(|&message| send(message)).collect();
        skeleton.strand(&sends);
    }
    if messages.len().is_multiple_of(limit::HEIGHT) {
        skeleton.strand(&[]);
    }
    let last = skeleton.strands.len() - 1;
    skeleton.strands[last].push(receive(asked));
    let end = (last as u8, skeleton.strands[last].len() as u8 - 1);
    for strand in 0..last {
        skeleton.before((strand as u8, limit::HEIGHT as u8 - 1), end);
    }
    skeleton
}

/// A message of `terms` terms whose two halves are each time the same: written out it would
/// have 2 to the power of `terms` - 1 leaves. Both skeletons send it and take it apart again;
/// the second also knows that the leaf is unique.
pub fn shared(terms: usize) -> Sheet {
    assert!((3..=limit::TERMS).contains(&terms));
    let mut sheet = Sheet::new();
    let leaf = sheet.text("leaf");
    let whole = (1..terms).fold(leaf, |half, _| sheet.pair(half, half));
    for _ in 0..2 {
        sheet
            .skeleton()
            .strand(&[send(whole), receive(whole - 1)])
            .strand(&[receive(whole), receive(leaf)])
            .before((0, 0), (1, 0));
    }
    sheet.skeletons[1].once(&[leaf]);
    sheet
}

/// A tower of up to 190 levels, each made of the levels below it in one way or another.
pub fn tower(rng: &mut Rng) -> Sheet {
    let mut sheet = Sheet::new();
    let key = sheet.skey("key");
    let mut levels = vec![sheet.text("leaf"), sheet.data("second leaf")];
    let height = *rng.pick(&[4, 8, 20, 60, 190]);
    let style = rng.below(5);
    while levels.len() < height {
        let top = levels[levels.len() - 1];
        let below = levels[levels.len() - 1 - rng.below(2)];
        levels.push(match if style == 4 { rng.below(4) } else { style } {
            0 => sheet.pair(top, below),
            1 => sheet.pair(below, top),
            2 => sheet.enc(&[top], below),
            _ => sheet.enc(&[top], key),
        });
    }
    let skeleton = around_tower(rng, &levels, key);
    sheet.skeletons.push(skeleton);
    let again = sheet.skeletons[0].clone();
    let mut first = again.clone();
    good::assume(&sheet, rng, &mut first);
    sheet.skeletons[0] = first;
    if rng.chance(1, 2) {
        sheet.skeletons.push(again);
    }
    sheet
}

fn around_tower(rng: &mut Rng, levels: &[u8], key: u8) -> Skeleton {
    let top = levels[levels.len() - 1];
    let mut skeleton = Skeleton::default();
    skeleton.strand(&[send(top)]);
    if rng.chance(2, 3) {
        skeleton.strands[0].push(send(key));
    }
    skeleton.strands[0].push(receive(*rng.pick(levels)));
    skeleton.strand(&[receive(*rng.pick(levels)), receive(levels[0]), send(key)]);
    skeleton.before((0, 0), (1, rng.below(2) as u8));
    skeleton
}

/// A secret of the chain and the two keys that it stands for.
struct Lock {
    /// What must be held, or built, to open.
    secret: u8,
    /// What closes.
    closing: u8,
}

/// Chains of locks: each message carries the next secret under the key of the one before, the
/// keys being atoms of all kinds, parts put together, and hashes.
pub fn locks(rng: &mut Rng) -> Sheet {
    let mut sheet = Sheet::new();
    let count = rng.between(2, 10);
    let locks: Vec<Lock> = (0..count)
        .map(|at| lock(&mut sheet, rng, at as u8))
        .collect();
    let prize = sheet.term(kind::DATA, 100, 0);
    let mut messages = Vec::new();
    for at in 0..count {
        let next = locks.get(at + 1).map_or(prize, |lock| lock.secret);
        messages.push(closed(&mut sheet, rng, next, locks[at].closing));
    }
    messages.push(locks[0].secret);
    if rng.chance(1, 2) {
        let lost = rng.below(messages.len());
        messages.remove(lost);
    }
    if rng.chance(1, 3) {
        rng.shuffle(&mut messages);
    }
    let asked = asked_of(&mut sheet, rng, &locks, prize);
    let skeleton = secretive(&sheet, rng, spread(&messages, asked));
    sheet.skeletons.push(skeleton);
    if rng.chance(3, 4) {
        let first = sheet.skeletons[0].clone();
        let second = good::images(&mut sheet, rng, &first);
        sheet.skeletons.push(second);
    }
    renumbered(rng, &sheet)
}

fn lock(sheet: &mut Sheet, rng: &mut Rng, number: u8) -> Lock {
    let plain = |secret| Lock {
        secret,
        closing: secret,
    };
    match rng.below(9) {
        0 => plain(sheet.term(kind::SKEY, number, 0)),
        1 => plain(sheet.term(kind::TEXT, number, 0)),
        2 => plain(long_term(sheet, number)),
        3 => {
            let closing = sheet.term(kind::AKEY, number, 0);
            Lock {
                secret: sheet.inverse(closing),
                closing,
            }
        }
        4 => {
            let secret = sheet.term(kind::AKEY, number, 0);
            Lock {
                secret,
                closing: sheet.inverse(secret),
            }
        }
        5 => {
            let name = sheet.term(kind::NAME, number, 0);
            let closing = sheet.public(name);
            Lock {
                secret: sheet.inverse(closing),
                closing,
            }
        }
        _ => built_lock(sheet, rng, number),
    }
}

fn long_term(sheet: &mut Sheet, number: u8) -> u8 {
    let client = sheet.term(kind::NAME, number, 0);
    let server = sheet.term(kind::NAME, 100, 0);
    sheet.long_term(client, server)
}

/// A lock whose key has to be built from its secret.
fn built_lock(sheet: &mut Sheet, rng: &mut Rng, number: u8) -> Lock {
    let secret = sheet.term(kind::DATA, number, 0);
    let label = sheet.tag("label");
    let closing = match rng.below(6) {
        0 => sheet.hash(secret),
        1 => sheet.pair(secret, label),
        2 => sheet.enc(&[label], secret),
        3 => sheet.enc(&[secret], secret),
        4 => {
            let both = sheet.pair(label, secret);
            sheet.hash(both)
        }
        _ => {
            let hashed = sheet.hash(secret);
            sheet.enc(&[hashed, label], secret)
        }
    };
    Lock { secret, closing }
}

/// The secret under the key, alone or with something around it.
fn closed(sheet: &mut Sheet, rng: &mut Rng, secret: u8, key: u8) -> u8 {
    let label = sheet.tag("label");
    match rng.below(5) {
        0 => sheet.enc(&[secret, label], key),
        1 => sheet.enc(&[label, secret], key),
        2 => sheet.enc(&[secret, secret], key),
        _ => sheet.enc(&[secret], key),
    }
}

fn asked_of(sheet: &mut Sheet, rng: &mut Rng, locks: &[Lock], prize: u8) -> u8 {
    let lock = rng.pick(locks);
    match rng.below(5) {
        0 => lock.secret,
        1 => lock.closing,
        2 => sheet.hash(prize),
        3 => sheet.pair(lock.secret, prize),
        _ => prize,
    }
}

/// The skeleton with nearly every atom withheld that may be.
fn secretive(sheet: &Sheet, rng: &mut Rng, mut skeleton: Skeleton) -> Skeleton {
    let parts = Parts::of(sheet);
    for atom in sheet.atoms() {
        if rng.chance(9, 10) {
            good::assume_once(&parts, &mut skeleton, atom);
            good::assume_never(&parts, &mut skeleton, atom);
        }
    }
    skeleton
}

/// The same sheet with its terms numbered in another order, parts still before wholes.
pub fn renumbered(rng: &mut Rng, sheet: &Sheet) -> Sheet {
    let mut whole = sheet.clone();
    whole.add_inverses();
    let new_number = new_numbers(rng, &whole);
    let moved = |term: &mut u8| *term = new_number[*term as usize];
    let mut terms = whole.terms.clone();
    for (old, record) in whole.terms.iter().enumerate() {
        let mut record = *record;
        let parts = whole.inside(old as u8).len();
        record[1..1 + parts].iter_mut().for_each(moved);
        terms[new_number[old] as usize] = record;
    }
    whole.terms = terms;
    for skeleton in &mut whole.skeletons {
        let events = skeleton.strands.iter_mut().flatten();
        events.for_each(|event| moved(&mut event.term));
        skeleton.non_originating.iter_mut().for_each(moved);
        skeleton.unique.iter_mut().for_each(moved);
    }
    whole
}

/// A new number for each term, some number that is still free after its parts have theirs.
fn new_numbers(rng: &mut Rng, sheet: &Sheet) -> Vec<u8> {
    let count = sheet.terms.len();
    let mut new_number = vec![None; count];
    for number in 0..count {
        let ready = sheet.numbers_where(|term| {
            let placed = |part: &u8| new_number[*part as usize].is_some();
            !placed(&term) && sheet.inside(term).iter().all(placed)
        });
        let last = ready[ready.len() - 1];
        let next = if rng.chance(1, 2) {
            last
        } else {
            *rng.pick(&ready)
        };
        new_number[next as usize] = Some(number as u8);
    }
    new_number.into_iter().flatten().collect()
}
