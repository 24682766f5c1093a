//! What a generator must know of its own drawing to keep it good: carrying, occurring, origins.

use std::slice::from_ref;

use crate::builder::{kind, Event, Node, Sheet, Skeleton, RECEIVE, SEND};

/// Terms, one bit each.
#[derive(Clone, Copy, Default)]
pub struct TermSet([u64; 4]);

impl TermSet {
    pub fn only(term: u8) -> Self {
        let mut set = TermSet::default();
        set.0[term as usize / 64] |= 1 << (term % 64);
        set
    }

    pub fn has(&self, term: u8) -> bool {
        self.0[term as usize / 64] >> (term % 64) & 1 == 1
    }

    pub fn add_all(&mut self, other: &TermSet) {
        for (word, more) in self.0.iter_mut().zip(other.0) {
            *word |= more;
        }
    }
}

impl Sheet {
    /// The term's kind, or a number that is none where there is no such term.
    pub fn kind(&self, term: u8) -> u8 {
        let record = self.terms.get(term as usize);
        record.map_or(u8::MAX, |term| term[0])
    }

    pub fn is_atom(&self, term: u8) -> bool {
        (kind::TEXT..=kind::LONG_TERM).contains(&self.kind(term))
    }

    pub fn is_variable(&self, term: u8) -> bool {
        (kind::MESSAGE..=kind::AKEY).contains(&self.kind(term))
    }

    pub fn numbers_where(&self, wanted: impl Fn(u8) -> bool) -> Vec<u8> {
        let numbers = 0..self.terms.len() as u8;
        numbers.filter(|&term| wanted(term)).collect()
    }

    pub fn of_kinds(&self, kinds: &[u8]) -> Vec<u8> {
        self.numbers_where(|term| kinds.contains(&self.kind(term)))
    }

    pub fn atoms(&self) -> Vec<u8> {
        self.numbers_where(|term| self.is_atom(term))
    }

    /// The terms directly inside a term; of an encryption the body comes first.
    pub fn inside(&self, term: u8) -> &[u8] {
        match self.terms.get(term as usize) {
            Some([kind::PUBLIC | kind::INVERSE | kind::HASH, a, _]) => from_ref(a),
            Some([kind::LONG_TERM | kind::PAIR | kind::ENCRYPTION, both @ ..]) => both,
            _ => &[],
        }
    }

    fn carried_directly(&self, term: u8) -> &[u8] {
        match self.kind(term) {
            kind::PAIR => self.inside(term),
            kind::ENCRYPTION => &self.inside(term)[..1],
            _ => &[],
        }
    }
}

/// For each term of a sheet, what it carries and what occurs in it.
pub struct Parts {
    carried: Vec<TermSet>,
    occurring: Vec<TermSet>,
    variables: Vec<u8>,
}

impl Parts {
    pub fn of(sheet: &Sheet) -> Self {
        Parts {
            carried: closed(sheet, Sheet::carried_directly),
            occurring: closed(sheet, Sheet::inside),
            variables: sheet.numbers_where(|term| sheet.is_variable(term)),
        }
    }

    pub fn carried_in(&self, whole: u8) -> TermSet {
        let found = self.carried.get(whole as usize);
        found.copied().unwrap_or_default()
    }

    pub fn occurring_in(&self, whole: u8) -> TermSet {
        let found = self.occurring.get(whole as usize);
        found.copied().unwrap_or_default()
    }

    pub fn variables_of(&self, term: u8) -> Vec<u8> {
        let inside = self.occurring_in(term);
        let all = self.variables.iter().copied();
        all.filter(|&variable| inside.has(variable)).collect()
    }

    pub fn carried_by_events(&self, skeleton: &Skeleton) -> TermSet {
        let mut found = TermSet::default();
        for event in skeleton.strands.iter().flatten() {
            found.add_all(&self.carried_in(event.term));
        }
        found
    }

    pub fn occurring_in_events(&self, skeleton: &Skeleton) -> TermSet {
        let mut found = TermSet::default();
        for event in skeleton.strands.iter().flatten() {
            found.add_all(&self.occurring_in(event.term));
        }
        found
    }

    fn carries(&self, event: &Event, atom: u8) -> bool {
        self.carried_in(event.term).has(atom)
    }

    /// The node on each strand whose first event to carry the atom is a send.
    pub fn origins(&self, skeleton: &Skeleton, atom: u8) -> Vec<Node> {
        let mut origins = Vec::new();
        for (strand, events) in skeleton.strands.iter().enumerate() {
            let first = events.iter().position(|event| self.carries(event, atom));
            if let Some(position) = first.filter(|&at| events[at].direction == SEND) {
                origins.push((strand as u8, position as u8));
            }
        }
        origins
    }

    /// The receptions whose message carries the atom.
    pub fn gained_at(&self, skeleton: &Skeleton, atom: u8) -> Vec<Node> {
        skeleton.nodes_where(|event| event.direction == RECEIVE && self.carries(event, atom))
    }
}

/// Each term with all that the step leads to from it. Parts come before wholes.
fn closed(sheet: &Sheet, step: fn(&Sheet, u8) -> &[u8]) -> Vec<TermSet> {
    let mut sets: Vec<TermSet> = Vec::new();
    for term in 0..sheet.terms.len() as u8 {
        let mut set = TermSet::only(term);
        for &part in step(sheet, term).iter().filter(|&&part| part < term) {
            set.add_all(&sets[part as usize]);
        }
        sets.push(set);
    }
    sets
}

impl Skeleton {
    pub fn nodes_where(&self, wanted: impl Fn(&Event) -> bool) -> Vec<Node> {
        let mut nodes = Vec::new();
        for (strand, events) in self.strands.iter().enumerate() {
            for (position, event) in events.iter().enumerate() {
                if wanted(event) {
                    nodes.push((strand as u8, position as u8));
                }
            }
        }
        nodes
    }

    pub fn receptions(&self) -> Vec<Node> {
        self.nodes_where(|event| event.direction == RECEIVE)
    }

    pub fn sends(&self) -> Vec<Node> {
        self.nodes_where(|event| event.direction == SEND)
    }

    pub fn event(&self, node: Node) -> Event {
        self.strands[node.0 as usize][node.1 as usize]
    }

    /// Whether the first node comes before the second.
    pub fn precedes(&self, first: Node, second: Node) -> bool {
        let mut reached_from = [u8::MAX; 256];
        let mut waiting = self.straight_after(first);
        while let Some((strand, position)) = waiting.pop() {
            if position < reached_from[strand as usize] {
                reached_from[strand as usize] = position;
                let onwards = |from: Node| from.0 == strand && from.1 >= position;
                let orders = self.orders.iter().filter(|(from, _)| onwards(*from));
                waiting.extend(orders.map(|(_, to)| *to));
            }
        }
        second.1 >= reached_from[second.0 as usize]
    }

    fn straight_after(&self, node: Node) -> Vec<Node> {
        let orders = self.orders.iter().filter(|(from, _)| *from == node);
        let mut after: Vec<Node> = orders.map(|(_, to)| *to).collect();
        after.push((node.0, node.1.saturating_add(1)));
        after
    }
}
