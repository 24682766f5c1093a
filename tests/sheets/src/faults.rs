//! Each refusal planted where it can be, alone or together with another.

use crate::analysis::Parts;
use crate::builder::{kind, limit, Node, Sheet, Skeleton, RECEIVE, SEND};
use crate::records::{joined, places, records, Record};
use crate::rng::Rng;

/// A sheet as a list of records to plant faults in.
struct Draft {
    records: Vec<Record>,
}

/// The ways to earn a refusal, grouped by its number from 1 to 14.
type Fault = fn(&mut Draft, &mut Rng);

const FAULTS: [&[Fault]; 14] = [
    &[cut_inside, cut_between, one_byte_left],
    &[
        unknown_mark,
        misplaced_record,
        empty_skeleton,
        early_end,
        backwards_atoms,
    ],
    &[other_edition],
    &[
        many_terms,
        many_strands,
        many_orders,
        many_atoms,
        third_skeleton,
        wrong_height,
    ],
    &[
        wrong_kind,
        late_argument,
        wrong_argument,
        used_filler,
        message_as_key,
    ],
    &[doubled_term],
    &[
        wrong_direction,
        wrong_term,
        wrong_node,
        wrong_order,
        wrong_atom,
    ],
    &[bytes_behind],
    &[lone_key],
    &[backwards_order, crossed_orders],
    &[carried_never],
    &[second_origin, no_origin],
    &[early_reception],
    &[unseen_variable, seen_elsewhere],
];

/// The sheet with the faults of the refusals named planted one after the other.
pub fn with_faults(rng: &mut Rng, sheet: &[u8], refusals: &[usize]) -> Vec<u8> {
    let mut draft = Draft {
        records: records(sheet),
    };
    for &refusal in refusals {
        let fault = rng.pick(FAULTS[refusal - 1]);
        fault(&mut draft, rng);
    }
    joined(&draft.records)
}

pub const REFUSALS: usize = FAULTS.len();

impl Draft {
    fn read(&self) -> Sheet {
        Sheet::read(&joined(&self.records))
    }

    fn places(&self, mark: &[u8; 2]) -> Vec<usize> {
        places(&self.records, mark)
    }

    /// Any record with this mark.
    fn any(&mut self, rng: &mut Rng, mark: &[u8; 2]) -> Option<&mut Record> {
        let place = *rng.some(&self.places(mark))?;
        Some(&mut self.records[place])
    }

    /// The place behind the last of the terms.
    fn after_terms(&self) -> usize {
        let first = self.places(b"SK").first().copied();
        first.unwrap_or(self.records.len())
    }

    /// Adds a term behind the others and gives its number.
    fn add_term(&mut self, kind: u8, a: u8, b: u8) -> u8 {
        let place = self.after_terms();
        self.records.insert(place, vec![b'T', b'M', kind, a, b]);
        (self.places(b"TM").len() - 1).min(255) as u8
    }

    /// Adds a record to a skeleton, among those of its kind.
    fn add_to(&mut self, rng: &mut Rng, skeleton: usize, record: Record) {
        let starts = self.places(b"SK");
        let Some(&start) = starts.get(skeleton) else {
            return;
        };
        let end = starts.get(skeleton + 1).copied();
        let end = end.unwrap_or(self.records.len().saturating_sub(1));
        let rank = |record: &[u8]| {
            let marks: [&[u8; 2]; 5] = [b"SK", b"ST", b"OR", b"NO", b"UO"];
            marks
                .iter()
                .position(|mark| record.starts_with(*mark))
                .unwrap_or(5)
        };
        let own = rank(&record);
        let before = |at: usize| rank(&self.records[at]) < own;
        let first = (start..end)
            .find(|&at| !before(at))
            .unwrap_or(end.max(start + 1));
        let alike = (first..end)
            .take_while(|&at| rank(&self.records[at]) == own)
            .count();
        let place = if own == 1 {
            first + alike
        } else {
            first + rng.below(alike + 1)
        };
        self.records.insert(place.min(self.records.len()), record);
    }

    /// Any skeleton: its number and what it says.
    fn skeleton(&self, rng: &mut Rng) -> Option<(usize, Sheet, Skeleton)> {
        let sheet = self.read();
        if sheet.skeletons.is_empty() {
            return None;
        }
        let number = rng.below(sheet.skeletons.len());
        let skeleton = sheet.skeletons[number].clone();
        Some((number, sheet, skeleton))
    }
}

fn strand_record(events: &[(u8, u8)]) -> Record {
    let mut record = vec![b'S', b'T', events.len() as u8];
    for &(direction, term) in events {
        record.extend_from_slice(&[direction, term]);
    }
    record
}

fn order_record(first: Node, second: Node) -> Record {
    vec![b'O', b'R', first.0, first.1, second.0, second.1]
}

fn atom_record(mark: &[u8; 2], atom: u8) -> Record {
    vec![mark[0], mark[1], atom]
}

// Refusal 1: bytes end too early.

fn cut_inside(draft: &mut Draft, rng: &mut Rng) {
    let last = rng.below(draft.records.len());
    let length = draft.records[last].len();
    draft.records.truncate(last + 1);
    draft.records[last].truncate(rng.between(1, length.max(2) - 1));
}

fn cut_between(draft: &mut Draft, rng: &mut Rng) {
    let kept = rng.below(draft.records.len());
    draft.records.truncate(kept);
    if kept == 0 {
        draft.records.push(Vec::new());
    }
}

fn one_byte_left(draft: &mut Draft, rng: &mut Rng) {
    cut_between(draft, rng);
    let byte = *rng.pick(&[b'T', b'S', b'E', 0, 255]);
    draft.records.push(vec![byte]);
}

// Refusal 2: marks.

fn unknown_mark(draft: &mut Draft, rng: &mut Rng) {
    let place = rng.below(draft.records.len());
    let record = &mut draft.records[place];
    let at = rng.below(2);
    if let Some(byte) = record.get_mut(at) {
        *byte = *rng.pick(&[byte.to_ascii_lowercase(), 0, b'X', b'T', b'O', b'N']);
    }
}

fn misplaced_record(draft: &mut Draft, rng: &mut Rng) {
    let record = match rng.below(8) {
        0 => b"BS\x01".to_vec(),
        1 => b"TM\x00\xfe\x00".to_vec(),
        2 => b"SK".to_vec(),
        3 => strand_record(&[(SEND, 0)]),
        4 => order_record((0, 0), (0, 1)),
        5 => atom_record(b"NO", 0),
        6 => atom_record(b"UO", 0),
        _ => b"EN".to_vec(),
    };
    let place = rng.below(draft.records.len());
    draft.records.insert(place, record);
}

fn empty_skeleton(draft: &mut Draft, rng: &mut Rng) {
    if let Some(&place) = rng.some(&draft.places(b"SK")) {
        draft.records.insert(place, b"SK".to_vec());
    }
}

fn early_end(draft: &mut Draft, rng: &mut Rng) {
    let place = rng.below(draft.records.len());
    draft.records.insert(place, b"EN".to_vec());
}

/// NO behind UO, OR behind NO: also when one of them is one too many.
fn backwards_atoms(draft: &mut Draft, rng: &mut Rng) {
    let wrong: [(&[u8; 2], Record); 3] = [
        (b"UO", atom_record(b"NO", 0)),
        (b"NO", order_record((0, 0), (0, 1))),
        (b"OR", strand_record(&[(SEND, 0)])),
    ];
    let (mark, record) = rng.pick(&wrong);
    if let Some(&place) = rng.some(&draft.places(mark)) {
        draft.records.insert(place + 1, record.clone());
    }
}

// Refusal 3: the edition.

fn other_edition(draft: &mut Draft, rng: &mut Rng) {
    if let Some([_, _, edition]) = draft.any(rng, b"BS").map(Vec::as_mut_slice) {
        *edition = *rng.pick(&[0, 2, 3, 255]);
    }
}

// Refusal 4: one too many, and heights.

fn many_terms(draft: &mut Draft, rng: &mut Rng) {
    let count = draft.places(b"TM").len();
    for number in count..=limit::TERMS + rng.below(2) {
        draft.add_term(kind::TAG, number as u8, 0);
    }
}

fn many_strands(draft: &mut Draft, rng: &mut Rng) {
    let Some((number, _, skeleton)) = draft.skeleton(rng) else {
        return;
    };
    for _ in skeleton.strands.len()..=limit::STRANDS {
        draft.add_to(rng, number, strand_record(&[(RECEIVE, 0)]));
    }
}

fn many_orders(draft: &mut Draft, rng: &mut Rng) {
    let Some((number, _, skeleton)) = draft.skeleton(rng) else {
        return;
    };
    let (Some(&from), Some(&to)) = (
        rng.some(&skeleton.sends()),
        rng.some(&skeleton.receptions()),
    ) else {
        return;
    };
    for _ in skeleton.orders.len()..=limit::ORDERS {
        draft.add_to(rng, number, order_record(from, to));
    }
}

fn many_atoms(draft: &mut Draft, rng: &mut Rng) {
    let Some((number, sheet, skeleton)) = draft.skeleton(rng) else {
        return;
    };
    let Some(&atom) = rng.some(&sheet.atoms()) else {
        return;
    };
    let (mark, there) = match rng.below(2) {
        0 => (b"NO", skeleton.non_originating.len()),
        _ => (b"UO", skeleton.unique.len()),
    };
    for _ in there..=limit::ATOMS {
        draft.add_to(rng, number, atom_record(mark, atom));
    }
}

fn third_skeleton(draft: &mut Draft, _: &mut Rng) {
    for _ in draft.places(b"SK").len()..=limit::SKELETONS {
        let end = draft.records.len().saturating_sub(1);
        draft.records.insert(end, strand_record(&[(RECEIVE, 0)]));
        draft.records.insert(end, b"SK".to_vec());
    }
}

fn wrong_height(draft: &mut Draft, rng: &mut Rng) {
    let height = *rng.pick(&[0, 0, 17, 17, 18, 255]);
    if let Some(record) = draft.any(rng, b"ST") {
        record[2] = height as u8;
        if rng.chance(3, 4) {
            record.resize(3 + 2 * height, 0);
        }
    }
}

// Refusal 5: terms.

fn wrong_kind(draft: &mut Draft, rng: &mut Rng) {
    if let Some(record) = draft.any(rng, b"TM") {
        record[2] = *rng.pick(&[13, 14, 100, 255]);
    }
}

/// An argument that is the term itself or comes later.
fn late_argument(draft: &mut Draft, rng: &mut Rng) {
    let terms = draft.places(b"TM");
    let number = rng.below(terms.len().max(1));
    let compound = |at: &&usize| draft.records[**at][2] >= kind::PUBLIC;
    let compounds: Vec<usize> = terms.iter().filter(compound).copied().collect();
    let Some(&place) = rng.some(&compounds) else {
        let own = terms.len() as u8;
        draft.add_term(kind::PAIR, own, number as u8);
        return;
    };
    let own = terms.iter().position(|&at| at == place).unwrap_or(0);
    let record = &mut draft.records[place];
    let two = matches!(record[2], kind::LONG_TERM | kind::PAIR | kind::ENCRYPTION);
    let argument = 3 + if two { rng.below(2) } else { 0 };
    record[argument] = *rng.pick(&[own as u8, own as u8 + 1, terms.len() as u8, 255]);
}

/// A name, or a key to invert, that is something else.
fn wrong_argument(draft: &mut Draft, rng: &mut Rng) {
    let sheet = draft.read();
    let kind = *rng.pick(&[
        kind::PUBLIC,
        kind::INVERSE,
        kind::LONG_TERM,
        kind::LONG_TERM,
    ]);
    let fitting: &[u8] = match kind {
        kind::INVERSE => &[kind::AKEY, kind::PUBLIC],
        _ => &[kind::NAME],
    };
    let wrong = sheet.numbers_where(|term| !fitting.contains(&sheet.kind(term)));
    let right = sheet.of_kinds(fitting);
    let Some(&wrong) = rng.some(&wrong) else {
        return;
    };
    let other = rng.some(&right).copied().unwrap_or(wrong);
    match (kind, rng.chance(1, 2)) {
        (kind::LONG_TERM, true) => draft.add_term(kind, wrong, other),
        (kind::LONG_TERM, false) => draft.add_term(kind, other, wrong),
        _ => draft.add_term(kind, wrong, 0),
    };
}

/// An unused byte that isn't 0.
fn used_filler(draft: &mut Draft, rng: &mut Rng) {
    let mut single = draft.places(b"TM");
    single.retain(|&at| !matches!(draft.records[at][2], 9..=11));
    if let Some(&place) = rng.some(&single) {
        draft.records[place][4] = *rng.pick(&[1, 2, 255]);
    }
}

fn message_as_key(draft: &mut Draft, rng: &mut Rng) {
    let sheet = draft.read();
    let message = rng.some(&sheet.of_kinds(&[kind::MESSAGE])).copied();
    let key = message.unwrap_or_else(|| draft.add_term(kind::MESSAGE, 77, 0));
    draft.add_term(kind::ENCRYPTION, rng.below(key as usize + 1) as u8, key);
}

// Refusal 6: a term twice.

fn doubled_term(draft: &mut Draft, rng: &mut Rng) {
    if let Some(record) = draft.any(rng, b"TM") {
        let (kind, a, b) = (record[2], record[3], record[4]);
        draft.add_term(kind, a, b);
    }
}

// Refusal 7: events, orders and assumptions.

fn wrong_direction(draft: &mut Draft, rng: &mut Rng) {
    if let Some(record) = draft.any(rng, b"ST").filter(|record| record.len() > 3) {
        let event = rng.below((record.len() - 3) / 2);
        record[3 + 2 * event] = *rng.pick(&[2, 3, 255]);
    }
}

fn wrong_term(draft: &mut Draft, rng: &mut Rng) {
    let count = draft.places(b"TM").len().min(255) as u8;
    let mark = *rng.pick(&[b"ST", b"ST", b"NO", b"UO"]);
    if let Some(record) = draft.any(rng, mark) {
        let last = record.len() - 1;
        record[last] = *rng.pick(&[count, 255]);
    }
}

/// A strand or position that the skeleton hasn't got, or only the other one has.
fn wrong_node(draft: &mut Draft, rng: &mut Rng) {
    let Some((number, _, skeleton)) = draft.skeleton(rng) else {
        return;
    };
    let some = |nodes: Vec<Node>, rng: &mut Rng| rng.some(&nodes).copied().unwrap_or((0, 0));
    let from = some(skeleton.sends(), rng);
    let to = some(skeleton.receptions(), rng);
    let mut record = order_record(from, to);
    let strands = skeleton.strands.len() as u8;
    let height = |node: Node| skeleton.strands.get(node.0 as usize).map_or(0, Vec::len) as u8;
    match rng.below(4) {
        0 => record[2] = *rng.pick(&[strands, 6, 255]),
        1 => record[3] = *rng.pick(&[height(from), 16, 255]),
        2 => record[4] = *rng.pick(&[strands, 6, 255]),
        _ => record[5] = *rng.pick(&[height(to), 16, 255]),
    }
    draft.add_to(rng, number, record);
}

/// An order that begins at a reception or ends at a send.
fn wrong_order(draft: &mut Draft, rng: &mut Rng) {
    let Some((number, _, skeleton)) = draft.skeleton(rng) else {
        return;
    };
    let (sends, receptions) = (skeleton.sends(), skeleton.receptions());
    let (first, second) = match rng.below(3) {
        0 => (&sends, &sends),
        1 => (&receptions, &receptions),
        _ => (&receptions, &sends),
    };
    if let (Some(&from), Some(&to)) = (rng.some(first), rng.some(second)) {
        draft.add_to(rng, number, order_record(from, to));
    }
}

fn wrong_atom(draft: &mut Draft, rng: &mut Rng) {
    let Some((number, sheet, _)) = draft.skeleton(rng) else {
        return;
    };
    let mark = *rng.pick(&[b"NO", b"UO"]);
    let others = sheet.numbers_where(|term| !sheet.is_atom(term));
    let atom = rng.some(&others).copied().unwrap_or(255);
    draft.add_to(rng, number, atom_record(mark, atom));
}

// Refusals 8 and 9.

fn bytes_behind(draft: &mut Draft, rng: &mut Rng) {
    let more = *rng.pick(&[&b"E"[..], b"EN", b"\x00", b"SK", b"TM\x00\x00\x00"]);
    draft.records.push(more.to_vec());
}

fn lone_key(draft: &mut Draft, rng: &mut Rng) {
    let sheet = draft.read();
    let names = sheet.of_kinds(&[kind::NAME]);
    let fresh = |name: &&u8| sheet.number_of([kind::PUBLIC, **name, 0]).is_none();
    match names.iter().find(fresh) {
        Some(&name) if rng.chance(1, 2) => draft.add_term(kind::PUBLIC, name, 0),
        _ => draft.add_term(kind::AKEY, 200 + rng.below(50) as u8, 0),
    };
}

// Refusals 10 to 14: the rules of a skeleton.

/// An order from a strand's end back to its beginning.
fn backwards_order(draft: &mut Draft, rng: &mut Rng) {
    if let Some((number, _, skeleton)) = draft.skeleton(rng) {
        let strand = skeleton.strands.len() as u8;
        draft.add_to(rng, number, strand_record(&[(RECEIVE, 0), (SEND, 0)]));
        draft.add_to(rng, number, order_record((strand, 1), (strand, 0)));
    }
}

/// Two strands that wait for each other, or three in a ring.
fn crossed_orders(draft: &mut Draft, rng: &mut Rng) {
    if let Some((number, _, skeleton)) = draft.skeleton(rng) {
        let first = skeleton.strands.len() as u8;
        let ring = rng.between(2, 3) as u8;
        for at in 0..ring {
            draft.add_to(rng, number, strand_record(&[(RECEIVE, 0), (SEND, 0)]));
            let next = first + (at + 1) % ring;
            draft.add_to(rng, number, order_record((first + at, 1), (next, 0)));
        }
    }
}

fn carried_never(draft: &mut Draft, rng: &mut Rng) {
    let Some((number, sheet, skeleton)) = draft.skeleton(rng) else {
        return;
    };
    let carried = Parts::of(&sheet).carried_by_events(&skeleton);
    let atoms = sheet.numbers_where(|term| sheet.is_atom(term) && carried.has(term));
    if let Some(&atom) = rng.some(&atoms) {
        draft.add_to(rng, number, atom_record(b"NO", atom));
    }
}

fn second_origin(draft: &mut Draft, rng: &mut Rng) {
    let Some((number, sheet, skeleton)) = draft.skeleton(rng) else {
        return;
    };
    let lone = rng.some(&sheet.atoms()).copied();
    if let Some(atom) = rng.some(&skeleton.unique).copied().or(lone) {
        draft.add_to(rng, number, strand_record(&[(SEND, atom)]));
        if !skeleton.unique.contains(&atom) {
            draft.add_to(rng, number, atom_record(b"UO", atom));
            draft.add_to(rng, number, strand_record(&[(SEND, atom)]));
        }
    }
}

fn no_origin(draft: &mut Draft, rng: &mut Rng) {
    let Some((number, sheet, skeleton)) = draft.skeleton(rng) else {
        return;
    };
    let parts = Parts::of(&sheet);
    let nowhere = |atom: u8| parts.origins(&skeleton, atom).is_empty();
    let atoms = sheet.numbers_where(|term| sheet.is_atom(term) && nowhere(term));
    if let Some(&atom) = rng.some(&atoms) {
        draft.add_to(rng, number, atom_record(b"UO", atom));
    }
}

fn early_reception(draft: &mut Draft, rng: &mut Rng) {
    let Some((number, sheet, skeleton)) = draft.skeleton(rng) else {
        return;
    };
    let parts = Parts::of(&sheet);
    let once = |atom: u8| parts.origins(&skeleton, atom).len() == 1;
    let atoms = sheet.numbers_where(|term| sheet.is_atom(term) && once(term));
    if let Some(&atom) = rng.some(&atoms) {
        let wholes = sheet.numbers_where(|term| parts.carried_in(term).has(atom));
        let whole = *rng.pick(&wholes);
        draft.add_to(rng, number, strand_record(&[(RECEIVE, whole)]));
        draft.add_to(rng, number, atom_record(b"UO", atom));
    }
}

/// A non-originating atom of variables that no event has.
fn unseen_variable(draft: &mut Draft, rng: &mut Rng) {
    let Some((number, ..)) = draft.skeleton(rng) else {
        return;
    };
    let fresh = 210 + rng.below(40) as u8;
    let atom = match rng.below(4) {
        0 => draft.add_term(kind::TEXT, fresh, 0),
        1 => draft.add_term(kind::SKEY, fresh, 0),
        2 => {
            let name = draft.add_term(kind::NAME, fresh, 0);
            draft.add_term(kind::LONG_TERM, name, name)
        }
        _ => {
            let key = draft.add_term(kind::AKEY, fresh, 0);
            draft.add_term(kind::INVERSE, key, 0)
        }
    };
    draft.add_to(rng, number, atom_record(b"NO", atom));
}

/// A non-originating atom whose variable only the other skeleton's events have.
fn seen_elsewhere(draft: &mut Draft, rng: &mut Rng) {
    let Some((number, sheet, _)) = draft.skeleton(rng) else {
        return;
    };
    if sheet.skeletons.len() != 2 {
        return unseen_variable(draft, rng);
    }
    let key = draft.add_term(kind::SKEY, 251, 0);
    let message = draft.add_term(kind::ENCRYPTION, key, key);
    draft.add_to(rng, 1 - number, strand_record(&[(SEND, message)]));
    draft.add_to(rng, number, atom_record(b"NO", key));
}
