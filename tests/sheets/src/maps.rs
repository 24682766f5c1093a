//! Pairs of skeletons with few maps, many maps and just as many as the bench has room for.

use crate::analysis::Parts;
use crate::builder::{kind, receive, send, Event, Node, Sheet, Skeleton};
use crate::good;
use crate::rng::Rng;

type Pairs<'a> = &'a [(u8, u8)];

/// The orders from the first event of one strand to the second event of another. They can't
/// make a cycle: no order leaves a second event.
fn crossing(skeleton: &mut Skeleton, pairs: Pairs) {
    for &(from, to) in pairs {
        skeleton.before((from, 0), (to, 1));
    }
}

/// Every pair of different strands out of six but those named.
fn all_pairs_but(missing: Pairs) -> Vec<(u8, u8)> {
    let pairs = (0..6).flat_map(|from| (0..6).map(move |to| (from, to)));
    pairs
        .filter(|pair| pair.0 != pair.1 && !missing.contains(pair))
        .collect()
}

/// 8,192 maps of six strands, which fill the bench's 49,152 bytes to the last.
///
/// Source strands 0 and 1 fit each of the six target strands, but 0 must begin before 1 ends:
/// of the 36 ways that leaves 6 with one image and 26 with two. Source strands 2 to 5 send
/// pairs, as four of the target strands do: 32 * 4 * 4 * 4 * 4 = 8,192.
pub fn just_fitting() -> Sheet {
    let mut sheet = Sheet::new();
    let source: Vec<Vec<Event>> = (0..6)
        .map(|at| open_strand(&mut sheet, at, at >= 2, true))
        .collect();
    let target: Vec<Vec<Event>> = (0..6)
        .map(|at| open_strand(&mut sheet, at + 10, at < 4, false))
        .collect();
    sheet.skeleton().strands = source;
    crossing(&mut sheet.skeletons[0], &[(0, 1)]);
    sheet.skeleton().strands = target;
    let pairs = all_pairs_but(&[(0, 5), (1, 4), (2, 3), (3, 0)]);
    crossing(&mut sheet.skeletons[1], &pairs);
    sheet
}

/// A strand that sends a pair, or a single message, and receives a text, all of its own.
fn open_strand(sheet: &mut Sheet, number: u8, paired: bool, variable: bool) -> Vec<Event> {
    let answer = sheet.term(kind::DATA, number, 0);
    let first = sheet.term(kind::TEXT, number, 0);
    let message = if paired {
        sheet.pair(first, answer)
    } else if variable {
        sheet.term(kind::MESSAGE, number, 0)
    } else {
        first
    };
    let heard = sheet.term(kind::TEXT, number + 100, 0);
    vec![send(message), receive(heard)]
}

/// 8,193 maps of six strands, one more than the bench has room for.
///
/// Every source strand fits every target strand; the orders alone decide. The pairs left out
/// below were looked for until the count came out; the test counts the maps anew.
pub fn one_too_many() -> Sheet {
    let mut sheet = Sheet::new();
    for (first, pairs) in [(0, SPARSE.to_vec()), (10, all_pairs_but(&LEFT_OUT))] {
        let strands = (0..6).map(|at| open_strand(&mut sheet, first + at, false, false));
        let strands = strands.collect();
        let skeleton = sheet.skeleton();
        skeleton.strands = strands;
        crossing(skeleton, &pairs);
    }
    sheet
}

pub const SPARSE: [(u8, u8); 5] = [(1, 0), (0, 2), (1, 3), (0, 4), (5, 4)];
pub const LEFT_OUT: [(u8, u8); 11] = [
    (0, 2),
    (0, 5),
    (1, 4),
    (2, 1),
    (2, 4),
    (3, 1),
    (3, 2),
    (4, 0),
    (4, 1),
    (5, 1),
    (5, 2),
];

/// Six strands against six, numbers 0 to 49, for timing the list: free strands, shared
/// variables, orders, assumptions that fail at the very end, and a last strand that fits nowhere.
pub fn six_by_six(number: usize) -> Sheet {
    let mut rng = Rng::of(606, number as u64);
    let style = Style::ALL[number % Style::ALL.len()];
    against(&mut rng, 6, 6, style)
}

#[derive(Clone, Copy, PartialEq)]
enum Style {
    Free,
    Shared,
    Ordered,
    Assumed,
    Hopeless,
}

impl Style {
    const ALL: [Style; 5] = [
        Style::Free,
        Style::Shared,
        Style::Ordered,
        Style::Assumed,
        Style::Hopeless,
    ];
}

/// Up to six strands against up to six, of any style.
pub fn any_against_any(rng: &mut Rng) -> Sheet {
    let style = *rng.pick(&Style::ALL);
    let (sources, targets) = match rng.below(8) {
        0 => (6, 6),
        1..=3 => (rng.between(1, 3), rng.between(1, 6)),
        _ => (rng.between(2, 5), rng.between(2, 5)),
    };
    against(rng, sources, targets, style)
}

fn against(rng: &mut Rng, sources: usize, targets: usize, style: Style) -> Sheet {
    let mut sheet = Sheet::new();
    let shared = if style == Style::Shared {
        rng.between(2, 4)
    } else {
        20
    };
    let spoken = if style == Style::Free {
        1
    } else {
        rng.between(1, 3)
    };
    let source = talkers(&mut sheet, rng, sources, 0, shared, spoken);
    let kinds = if style == Style::Shared { 2 } else { targets };
    let target = talkers(&mut sheet, rng, targets, 40, kinds, spoken.max(2));
    sheet.skeletons = vec![source, target];
    if style != Style::Free {
        let density = rng.between(1, 9);
        order_some(rng, &mut sheet.skeletons[0], 1);
        order_some(rng, &mut sheet.skeletons[1], density);
    }
    if style == Style::Assumed {
        assume_in_both(&mut sheet, rng);
    }
    if style == Style::Hopeless {
        let odd = sheet.tag("nobody says this");
        let last = sheet.skeletons[0].strands.len() - 1;
        sheet.skeletons[0].strands[last] = vec![send(odd)];
        sheet.skeletons[0]
            .orders
            .retain(|&(from, to)| within(from, last) && within(to, last));
    }
    sheet
}

fn within(node: Node, strands: usize) -> bool {
    (node.0 as usize) < strands
}

/// Strands that send a pair of texts and then receive one: `voices` different texts are used.
fn talkers(
    sheet: &mut Sheet,
    rng: &mut Rng,
    strands: usize,
    first: u8,
    voices: usize,
    height: usize,
) -> Skeleton {
    let mut skeleton = Skeleton::default();
    for strand in 0..strands as u8 {
        let voice = first + rng.below(voices) as u8;
        let own = sheet.term(kind::TEXT, voice, 0);
        let other = sheet.term(kind::TEXT, first + 20 + strand, 0);
        let said = sheet.pair(own, other);
        let events = [send(said), receive(other), receive(own)];
        skeleton.strand(&events[..height]);
    }
    skeleton
}

/// Orders from first to second events, each of the possible ones kept `density` times in ten.
fn order_some(rng: &mut Rng, skeleton: &mut Skeleton, density: usize) {
    let count = skeleton.strands.len() as u8;
    for from in 0..count {
        for to in 0..count {
            if skeleton.strands[to as usize].len() > 1 && rng.chance(density, 10) {
                skeleton.before((from, 0), (to, 1));
            }
        }
    }
}

fn assume_in_both(sheet: &mut Sheet, rng: &mut Rng) {
    let parts = Parts::of(sheet);
    for side in 0..2 {
        let mut skeleton = sheet.skeletons[side].clone();
        let texts = sheet.of_kinds(&[kind::TEXT]);
        for _ in 0..rng.between(1, 4) {
            good::assume_once(&parts, &mut skeleton, *rng.pick(&texts));
        }
        sheet.skeletons[side] = skeleton;
    }
}

/// Messages of every sort against images of them and near misses: message variables against
/// compounds, keys against inverses and long-term keys, tags against other tags.
pub fn sorts(rng: &mut Rng) -> Sheet {
    let mut sheet = Sheet::new();
    let source = sorted_strands(&mut sheet, rng, 0, 3);
    let target = sorted_strands(&mut sheet, rng, 4, 6);
    sheet.skeletons.push(source);
    if rng.chance(1, 2) {
        let first = sheet.skeletons[0].clone();
        let mut image = good::images(&mut sheet, rng, &first);
        if image.strands.len() + target.strands.len() <= 6 {
            good::join(&mut image, target);
        }
        sheet.skeletons.push(image);
    } else {
        sheet.skeletons.push(target);
    }
    add_unheard_keys(&mut sheet, rng);
    sheet.add_inverses();
    for side in 0..2 {
        let mut skeleton = sheet.skeletons[side].clone();
        skeleton.non_originating.clear();
        skeleton.unique.clear();
        good::assume(&sheet, rng, &mut skeleton);
        sheet.skeletons[side] = skeleton;
    }
    sheet
}

/// Keys of names, which no event need have and whose images need not be on the sheet.
fn add_unheard_keys(sheet: &mut Sheet, rng: &mut Rng) {
    for name in sheet.of_kinds(&[kind::NAME]) {
        match rng.below(4) {
            0 => sheet.long_term(name, name),
            1 => sheet.public(name),
            _ => name,
        };
    }
}

fn sorted_strands(sheet: &mut Sheet, rng: &mut Rng, first: u8, most: usize) -> Skeleton {
    let mut skeleton = Skeleton::default();
    for _ in 0..rng.between(1, most) {
        let mut events = Vec::new();
        for _ in 0..rng.between(1, 2) {
            let number = first + rng.below(2) as u8;
            let message = sorted_message(sheet, rng, number);
            events.push(if rng.chance(3, 5) {
                send(message)
            } else {
                receive(message)
            });
        }
        skeleton.strand(&events);
    }
    skeleton
}

fn sorted_message(sheet: &mut Sheet, rng: &mut Rng, number: u8) -> u8 {
    let text = sheet.term(kind::TEXT, number, 0);
    let any = sheet.term(kind::MESSAGE, number, 0);
    let name = sheet.term(kind::NAME, number, 0);
    match rng.below(16) {
        0 => any,
        1 => sheet.pair(any, text),
        2 => sheet.pair(any, any),
        3 => sheet.hash(any),
        4 => sheet.term(kind::TAG, number / 2, 0),
        5 => sheet.term(kind::DATA, number, 0),
        6 => {
            let other = sheet.term(kind::NAME, number ^ 1, 0);
            sheet.long_term(name, other)
        }
        7 => {
            let names = sheet.pair(name, name);
            sheet.pair(text, names)
        }
        8 => sheet.public(name),
        _ => keyed_message(sheet, rng, number, text),
    }
}

fn keyed_message(sheet: &mut Sheet, rng: &mut Rng, number: u8, text: u8) -> u8 {
    let name = sheet.term(kind::NAME, number, 0);
    let key = match rng.below(4) {
        0 => sheet.term(kind::SKEY, number, 0),
        1 => sheet.long_term(name, name),
        2 => sheet.public(name),
        _ => sheet.term(kind::AKEY, number, 0),
    };
    let opening = sheet.inverse(key);
    match rng.below(6) {
        0 => key,
        1 => opening,
        2 => sheet.enc(&[text], key),
        3 => sheet.enc(&[text], opening),
        4 => {
            let closed = sheet.enc(&[text], opening);
            sheet.pair(key, closed)
        }
        _ => {
            let body = sheet.term(kind::MESSAGE, number, 0);
            sheet.enc(&[body], key)
        }
    }
}
