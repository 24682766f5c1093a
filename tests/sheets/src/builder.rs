//! A bench sheet under construction: terms by name, strands, precedence and assumptions,
//! written out as the records of document 01.

use std::collections::HashMap;

pub mod kind {
    pub const TAG: u8 = 0;
    pub const MESSAGE: u8 = 1;
    pub const TEXT: u8 = 2;
    pub const DATA: u8 = 3;
    pub const NAME: u8 = 4;
    pub const SKEY: u8 = 5;
    pub const AKEY: u8 = 6;
    pub const PUBLIC: u8 = 7;
    pub const INVERSE: u8 = 8;
    pub const LONG_TERM: u8 = 9;
    pub const PAIR: u8 = 10;
    pub const ENCRYPTION: u8 = 11;
    pub const HASH: u8 = 12;
}

pub mod limit {
    pub const TERMS: usize = 200;
    pub const SKELETONS: usize = 2;
    pub const STRANDS: usize = 6;
    pub const HEIGHT: usize = 16;
    pub const ORDERS: usize = 64;
    pub const ATOMS: usize = 32;
    pub const LONGEST: usize = 2581;
    pub const READ: usize = 4096;
    pub const LIST_SPACE: usize = 49_152;
    /// What all maps of six strands to six take.
    pub const MOST_MAPS: usize = 6 * 46_656;
}

pub const SEND: u8 = 0;
pub const RECEIVE: u8 = 1;

#[derive(Clone, Copy, Debug, PartialEq, Eq)]
pub struct Event {
    pub direction: u8,
    pub term: u8,
}

pub fn send(term: u8) -> Event {
    Event {
        direction: SEND,
        term,
    }
}

pub fn receive(term: u8) -> Event {
    Event {
        direction: RECEIVE,
        term,
    }
}

/// Strand and position.
pub type Node = (u8, u8);

#[derive(Clone, Debug, Default)]
pub struct Skeleton {
    pub strands: Vec<Vec<Event>>,
    pub orders: Vec<(Node, Node)>,
    pub non_originating: Vec<u8>,
    pub unique: Vec<u8>,
}

impl Skeleton {
    pub fn strand(&mut self, events: &[Event]) -> &mut Self {
        self.strands.push(events.to_vec());
        self
    }

    pub fn before(&mut self, first: Node, second: Node) -> &mut Self {
        self.orders.push((first, second));
        self
    }

    pub fn never(&mut self, atoms: &[u8]) -> &mut Self {
        self.non_originating.extend_from_slice(atoms);
        self
    }

    pub fn once(&mut self, atoms: &[u8]) -> &mut Self {
        self.unique.extend_from_slice(atoms);
        self
    }

    fn write(&self, out: &mut Vec<u8>) {
        out.extend_from_slice(b"SK");
        for strand in &self.strands {
            out.extend_from_slice(b"ST");
            out.push(strand.len() as u8);
            for event in strand {
                out.extend_from_slice(&[event.direction, event.term]);
            }
        }
        for (first, second) in &self.orders {
            out.extend_from_slice(b"OR");
            out.extend_from_slice(&[first.0, first.1, second.0, second.1]);
        }
        write_atoms(out, b"NO", &self.non_originating);
        write_atoms(out, b"UO", &self.unique);
    }
}

fn write_atoms(out: &mut Vec<u8>, mark: &[u8; 2], atoms: &[u8]) {
    for &atom in atoms {
        out.extend_from_slice(mark);
        out.push(atom);
    }
}

#[derive(Clone, Debug, Default)]
pub struct Sheet {
    pub terms: Vec<[u8; 3]>,
    pub skeletons: Vec<Skeleton>,
    names: HashMap<(u8, String), u8>,
}

/// Terms. Each gives the term's number; a term already on the sheet keeps its number.
impl Sheet {
    pub fn new() -> Self {
        Self::default()
    }

    pub fn term(&mut self, kind: u8, a: u8, b: u8) -> u8 {
        let record = [kind, a, b];
        if let Some(number) = self.number_of(record) {
            return number;
        }
        self.terms.push(record);
        u8::try_from(self.terms.len() - 1).expect("a term number is one byte")
    }

    pub fn number_of(&self, record: [u8; 3]) -> Option<u8> {
        let place = self.terms.iter().position(|term| *term == record);
        place.map(|number| number as u8)
    }

    fn named(&mut self, kind: u8, name: &str) -> u8 {
        let next = self.names.keys().filter(|(of, _)| *of == kind).count() as u8;
        let key = (kind, name.to_string());
        let a = *self.names.entry(key).or_insert(next);
        self.term(kind, a, 0)
    }

    pub fn tag(&mut self, name: &str) -> u8 {
        self.named(kind::TAG, name)
    }

    pub fn text(&mut self, name: &str) -> u8 {
        self.named(kind::TEXT, name)
    }

    pub fn data(&mut self, name: &str) -> u8 {
        self.named(kind::DATA, name)
    }

    pub fn skey(&mut self, name: &str) -> u8 {
        self.named(kind::SKEY, name)
    }

    pub fn public(&mut self, name: u8) -> u8 {
        self.term(kind::PUBLIC, name, 0)
    }

    pub fn private(&mut self, name: u8) -> u8 {
        let key = self.public(name);
        self.inverse(key)
    }

    /// The key that opens what `key` has closed.
    pub fn inverse(&mut self, key: u8) -> u8 {
        match self.kind(key) {
            kind::AKEY | kind::PUBLIC => self.term(kind::INVERSE, key, 0),
            kind::INVERSE => self.terms[key as usize][1],
            _ => key,
        }
    }

    pub fn long_term(&mut self, a: u8, b: u8) -> u8 {
        self.term(kind::LONG_TERM, a, b)
    }

    pub fn pair(&mut self, a: u8, b: u8) -> u8 {
        self.term(kind::PAIR, a, b)
    }

    /// Several messages one after the other, paired from the right (001, introduction).
    pub fn cat(&mut self, parts: &[u8]) -> u8 {
        let (&last, front) = parts.split_last().expect("something to join");
        front
            .iter()
            .rev()
            .fold(last, |rest, &part| self.pair(part, rest))
    }

    /// The parts one after the other, under the key.
    pub fn enc(&mut self, parts: &[u8], key: u8) -> u8 {
        let body = self.cat(parts);
        self.term(kind::ENCRYPTION, body, key)
    }

    pub fn hash(&mut self, of: u8) -> u8 {
        self.term(kind::HASH, of, 0)
    }
}

impl Sheet {
    /// Begins the next skeleton.
    pub fn skeleton(&mut self) -> &mut Skeleton {
        self.skeletons.push(Skeleton::default());
        self.skeletons.last_mut().expect("just begun")
    }

    /// Adds at the end the inverses that are still missing, by rising key.
    pub fn add_inverses(&mut self) {
        for key in 0..self.terms.len() {
            if matches!(self.terms[key][0], kind::AKEY | kind::PUBLIC) {
                self.inverse(key as u8);
            }
        }
    }

    /// The sheet's records, every key with its inverse.
    pub fn bytes(&self) -> Vec<u8> {
        let mut whole = self.clone();
        whole.add_inverses();
        whole.bytes_as_they_are()
    }

    pub fn bytes_as_they_are(&self) -> Vec<u8> {
        let mut out = b"BS\x01".to_vec();
        for term in &self.terms {
            out.extend_from_slice(b"TM");
            out.extend_from_slice(term);
        }
        for skeleton in &self.skeletons {
            skeleton.write(&mut out);
        }
        out.extend_from_slice(b"EN");
        out
    }
}
