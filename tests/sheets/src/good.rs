//! Random good sheets: a stock of terms, drawings made along a time line, assumptions that hold,
//! and second skeletons that are images of the first.

use std::collections::HashMap;

use crate::analysis::Parts;
use crate::builder::{kind, limit, receive, send, Node, Sheet, Skeleton};
use crate::rng::Rng;

/// Up to this many terms the image of a whole skeleton finds room on the sheet.
const ROOM_FOR_IMAGES: usize = 90;

/// How much of everything a random sheet has.
pub struct Size {
    pub variables: usize,
    pub atoms: usize,
    pub compounds: usize,
    pub strands: usize,
    pub events: usize,
}

impl Size {
    pub fn random(rng: &mut Rng) -> Self {
        match rng.below(8) {
            0 => Size::of(rng, 2, 1, 2, 1, 3),
            1..=4 => Size::of(rng, 6, 4, 10, 3, 9),
            5..=6 => Size::of(rng, 10, 8, 24, 5, 20),
            _ => Size::of(rng, 16, 14, 60, 6, 80),
        }
    }

    fn of(
        rng: &mut Rng,
        variables: usize,
        atoms: usize,
        compounds: usize,
        strands: usize,
        events: usize,
    ) -> Self {
        Size {
            variables: rng.between(1, variables),
            atoms: rng.below(atoms + 1),
            compounds: rng.below(compounds + 1),
            strands: rng.between(1, strands),
            events: rng.between(1, events),
        }
    }
}

/// A good sheet of one skeleton or two.
pub fn random(rng: &mut Rng) -> Sheet {
    let size = Size::random(rng);
    let mut sheet = stock(rng, &size);
    let first = drawing(&sheet, rng, &size);
    sheet.skeletons.push(first);
    if rng.chance(4, 5) {
        let second = second_skeleton(&mut sheet, rng, &size);
        sheet.skeletons.push(second);
    }
    if sheet.skeletons.len() == 2 && rng.chance(1, 5) {
        sheet.skeletons.swap(0, 1);
    }
    sheet
}

fn second_skeleton(sheet: &mut Sheet, rng: &mut Rng, size: &Size) -> Skeleton {
    let first = sheet.skeletons[0].clone();
    match rng.below(6) {
        0 => drawing(sheet, rng, size),
        1 => grown(sheet, rng, &first),
        _ if sheet.terms.len() > ROOM_FOR_IMAGES => grown(sheet, rng, &first),
        _ => images(sheet, rng, &first),
    }
}

/// Variables, keys and names, then compounds of what is there already.
pub fn stock(rng: &mut Rng, size: &Size) -> Sheet {
    let mut sheet = Sheet::new();
    let variables = [0, 1, 2, 2, 3, 4, 4, 5, 5, 6, 6];
    for _ in 0..size.variables {
        let number = rng.below(4) as u8;
        sheet.term(*rng.pick(&variables), number, 0);
    }
    for _ in 0..size.atoms {
        add_atom(&mut sheet, rng);
    }
    sheet.add_inverses();
    for _ in 0..size.compounds {
        add_compound(&mut sheet, rng);
    }
    sheet
}

fn add_atom(sheet: &mut Sheet, rng: &mut Rng) {
    let names = sheet.of_kinds(&[kind::NAME]);
    if let (Some(&a), Some(&b)) = (rng.some(&names), rng.some(&names)) {
        match rng.below(3) {
            0 => sheet.public(a),
            1 => sheet.private(a),
            _ => sheet.long_term(a, b),
        };
    }
}

fn add_compound(sheet: &mut Sheet, rng: &mut Rng) {
    let a = any_term(sheet, rng);
    match rng.below(7) {
        0..=2 => {
            let b = any_term(sheet, rng);
            sheet.pair(a, b);
        }
        3..=5 => {
            if let Some(key) = any_key(sheet, rng) {
                sheet.enc(&[a], key);
            }
        }
        _ => {
            sheet.hash(a);
        }
    }
}

/// Any term, the later ones more often.
pub fn any_term(sheet: &Sheet, rng: &mut Rng) -> u8 {
    let count = sheet.terms.len();
    let back = rng.below(count).min(rng.below(count));
    (count - 1 - back) as u8
}

/// Something to encrypt under: mostly a key, at times anything but a message variable.
fn any_key(sheet: &Sheet, rng: &mut Rng) -> Option<u8> {
    let keys = sheet.of_kinds(&[
        kind::SKEY,
        kind::AKEY,
        kind::PUBLIC,
        kind::INVERSE,
        kind::LONG_TERM,
    ]);
    if !keys.is_empty() && rng.chance(3, 4) {
        return Some(*rng.pick(&keys));
    }
    let others = sheet.numbers_where(|term| sheet.kind(term) != kind::MESSAGE);
    rng.some(&others).copied()
}

/// A good skeleton over the sheet's terms. Its events come one after the other on a time line,
/// and each order runs forward on it.
pub fn drawing(sheet: &Sheet, rng: &mut Rng, size: &Size) -> Skeleton {
    let parts = Parts::of(sheet);
    let mut skeleton = Skeleton::default();
    skeleton.strands.resize(size.strands, Vec::new());
    let mut sent: Vec<(Node, u8)> = Vec::new();
    for step in 0..size.events.max(size.strands) {
        let strand = if step < size.strands {
            step
        } else {
            rng.below(size.strands)
        };
        let position = skeleton.strands[strand].len();
        if position == limit::HEIGHT {
            continue;
        }
        let node = (strand as u8, position as u8);
        if rng.chance(1, 2) {
            let term = any_term(sheet, rng);
            skeleton.strands[strand].push(send(term));
            sent.push((node, term));
        } else {
            let term = heard_term(sheet, &parts, rng, &sent);
            skeleton.strands[strand].push(receive(term));
            order_after_some(&mut skeleton, rng, &sent, node);
        }
    }
    assume(sheet, rng, &mut skeleton);
    skeleton
}

/// A message to receive: one that was sent, a part of one, or any term.
fn heard_term(sheet: &Sheet, parts: &Parts, rng: &mut Rng, sent: &[(Node, u8)]) -> u8 {
    let Some(&(_, term)) = rng.some(sent) else {
        return any_term(sheet, rng);
    };
    match rng.below(3) {
        0 => term,
        1 => {
            let inside = parts.occurring_in(term);
            *rng.pick(&sheet.numbers_where(|part| inside.has(part)))
        }
        _ => any_term(sheet, rng),
    }
}

fn order_after_some(skeleton: &mut Skeleton, rng: &mut Rng, sent: &[(Node, u8)], node: Node) {
    for _ in 0..rng.below(3) {
        if let Some(&(earlier, _)) = rng.some(sent) {
            if skeleton.orders.len() < limit::ORDERS - 16 {
                skeleton.before(earlier, node);
            }
        }
    }
}

/// Assumes some, most or all of the atoms that may be assumed.
pub fn assume(sheet: &Sheet, rng: &mut Rng, skeleton: &mut Skeleton) {
    let parts = Parts::of(sheet);
    let eagerness = rng.between(1, 5);
    for atom in sheet.atoms() {
        if rng.chance(eagerness, 5) {
            assume_never(&parts, skeleton, atom);
        }
        if rng.chance(eagerness, 5) {
            assume_once(&parts, skeleton, atom);
        }
    }
    rng.shuffle(&mut skeleton.non_originating);
    rng.shuffle(&mut skeleton.unique);
}

/// Assumes that the atom never originates, if the drawing allows it.
pub fn assume_never(parts: &Parts, skeleton: &mut Skeleton, atom: u8) {
    let seen = parts.occurring_in_events(skeleton);
    let known = parts.variables_of(atom).iter().all(|&part| seen.has(part));
    let carried = parts.carried_by_events(skeleton).has(atom);
    if known && !carried && skeleton.non_originating.len() < limit::ATOMS {
        skeleton.never(&[atom]);
    }
}

/// Assumes that the atom originates once, if the drawing allows it; orders are added for it.
pub fn assume_once(parts: &Parts, skeleton: &mut Skeleton, atom: u8) {
    let [origin] = parts.origins(skeleton, atom)[..] else {
        return;
    };
    let mut mended = skeleton.clone();
    for node in parts.gained_at(skeleton, atom) {
        if mended.precedes(origin, node) {
            continue;
        }
        if mended.precedes(node, origin) || mended.orders.len() == limit::ORDERS {
            return;
        }
        mended.before(origin, node);
    }
    if mended.unique.len() < limit::ATOMS {
        mended.once(&[atom]);
        *skeleton = mended;
    }
}

/// The skeleton with strands, orders and assumptions added.
fn grown(sheet: &Sheet, rng: &mut Rng, first: &Skeleton) -> Skeleton {
    let mut larger = first.clone();
    while larger.strands.len() < limit::STRANDS && rng.chance(1, 2) {
        let message = any_term(sheet, rng);
        let answer = any_term(sheet, rng);
        larger.strand(&[send(message), receive(answer)]);
    }
    add_orders(rng, &mut larger);
    only_good(sheet, rng, larger)
}

fn add_orders(rng: &mut Rng, skeleton: &mut Skeleton) {
    let (sends, receptions) = (skeleton.sends(), skeleton.receptions());
    for _ in 0..rng.below(4) {
        let (Some(&from), Some(&to)) = (rng.some(&sends), rng.some(&receptions)) else {
            return;
        };
        if from != to && !skeleton.precedes(to, from) && skeleton.orders.len() < limit::ORDERS {
            skeleton.before(from, to);
        }
    }
}

/// One to three images of the skeleton side by side, a little less or more than they should be.
pub fn images(sheet: &mut Sheet, rng: &mut Rng, first: &Skeleton) -> Skeleton {
    let mut whole = Skeleton::default();
    for _ in 0..rng.between(1, 3) {
        let room = whole.strands.len() + first.strands.len() <= limit::STRANDS
            && whole.orders.len() + first.orders.len() <= limit::ORDERS
            && sheet.terms.len() <= ROOM_FOR_IMAGES;
        if room || whole.strands.is_empty() {
            let image = image(sheet, rng, first);
            join(&mut whole, image);
        }
    }
    if rng.chance(1, 3) {
        wear(rng, &mut whole);
    }
    if rng.chance(1, 3) {
        add_orders(rng, &mut whole);
    }
    let whole = permuted(rng, &whole);
    only_good(sheet, rng, whole)
}

fn image(sheet: &mut Sheet, rng: &mut Rng, first: &Skeleton) -> Skeleton {
    let mut images = substitution(sheet, rng, first);
    let mut image = first.clone();
    for event in image.strands.iter_mut().flatten() {
        event.term = substitute(sheet, &mut images, event.term);
    }
    if rng.chance(1, 4) {
        image.non_originating.clear();
    }
    for atom in image.non_originating.iter_mut().chain(&mut image.unique) {
        *atom = substitute(sheet, &mut images, *atom);
    }
    image
}

/// A random substitution that keeps sorts; about a third of the variables stay.
fn substitution(sheet: &mut Sheet, rng: &mut Rng, first: &Skeleton) -> HashMap<u8, u8> {
    let seen = Parts::of(sheet).occurring_in_events(first);
    let mut images = HashMap::new();
    for variable in sheet.numbers_where(|term| seen.has(term) && sheet.is_variable(term)) {
        let fitting: &[u8] = match sheet.kind(variable) {
            kind::MESSAGE => &[1, 2, 5, 7, 10, 11, 12],
            kind::AKEY => &[6, 7, 8],
            kind::SKEY => &[5, 9],
            other => &[other],
        };
        let found = sheet.of_kinds(fitting);
        let image = match rng.below(3) {
            0 => variable,
            1 if sheet.kind(variable) != kind::MESSAGE => {
                let fresh = rng.below(6) as u8;
                sheet.term(sheet.kind(variable), fresh, 0)
            }
            _ => *rng.some(&found).unwrap_or(&variable),
        };
        images.insert(variable, image);
    }
    images
}

/// The term with each variable replaced by its image; what was found is kept among the images.
pub fn substitute(sheet: &mut Sheet, images: &mut HashMap<u8, u8>, term: u8) -> u8 {
    if let Some(&image) = images.get(&term) {
        return image;
    }
    let [kind, a, b] = sheet.terms[term as usize];
    let image = match kind {
        kind::PUBLIC | kind::HASH => {
            let a = substitute(sheet, images, a);
            sheet.term(kind, a, 0)
        }
        kind::INVERSE => {
            let key = substitute(sheet, images, a);
            sheet.inverse(key)
        }
        kind::LONG_TERM | kind::PAIR | kind::ENCRYPTION => {
            let a = substitute(sheet, images, a);
            let b = substitute(sheet, images, b);
            sheet.term(kind, a, b)
        }
        _ => term,
    };
    images.insert(term, image);
    image
}

/// Sets the strands of one skeleton behind those of another.
pub fn join(whole: &mut Skeleton, more: Skeleton) {
    let shift = whole.strands.len() as u8;
    let moved = |node: Node| (node.0 + shift, node.1);
    whole.strands.extend(more.strands);
    let orders = more
        .orders
        .iter()
        .map(|&(from, to)| (moved(from), moved(to)));
    whole.orders.extend(orders);
    whole.non_originating.extend(more.non_originating);
    whole.unique.extend(more.unique);
}

/// Loses one order or one assumption.
fn wear(rng: &mut Rng, skeleton: &mut Skeleton) {
    match rng.below(3) {
        0 => lose_one(rng, &mut skeleton.orders),
        1 => lose_one(rng, &mut skeleton.non_originating),
        _ => lose_one(rng, &mut skeleton.unique),
    }
}

pub fn lose_one<T>(rng: &mut Rng, items: &mut Vec<T>) {
    if !items.is_empty() {
        let lost = rng.below(items.len());
        items.remove(lost);
    }
}

fn permuted(rng: &mut Rng, skeleton: &Skeleton) -> Skeleton {
    let mut order: Vec<usize> = (0..skeleton.strands.len()).collect();
    rng.shuffle(&mut order);
    let moved = |node: Node| {
        let place = order.iter().position(|&strand| strand == node.0 as usize);
        (place.expect("a strand of the skeleton") as u8, node.1)
    };
    let mut result = skeleton.clone();
    result.strands = order
        .iter()
        .map(|&strand| skeleton.strands[strand].clone())
        .collect();
    result.orders = skeleton
        .orders
        .iter()
        .map(|&(from, to)| (moved(from), moved(to)))
        .collect();
    result
}

/// The drawing with those of its assumptions, and at times others, that make a good skeleton.
fn only_good(sheet: &Sheet, rng: &mut Rng, mut drawing: Skeleton) -> Skeleton {
    let never = std::mem::take(&mut drawing.non_originating);
    let once = std::mem::take(&mut drawing.unique);
    let parts = Parts::of(sheet);
    for atom in never {
        assume_never(&parts, &mut drawing, atom);
    }
    for atom in once {
        assume_once(&parts, &mut drawing, atom);
    }
    if rng.chance(1, 4) {
        assume(sheet, rng, &mut drawing);
    }
    drawing
}
