//! The terms of a sheet: kinds, inverses, carrying and occurring.

use crate::limits::{NO_IMAGE, TERM_ROOM};
use crate::slips::{Slip, HASH_CARRIES, KEY_CARRIED};
use crate::termset::TermSet;

pub mod kind {
    pub const TAG: u8 = 0;
    pub const MESSAGE: u8 = 1;
    pub const TEXT: u8 = 2;
    // Data, 3, has no rule of its own.
    pub const NAME: u8 = 4;
    pub const SYMMETRIC: u8 = 5;
    pub const ASYMMETRIC: u8 = 6;
    pub const PUBLIC: u8 = 7;
    pub const INVERSE: u8 = 8;
    pub const LONG_TERM: u8 = 9;
    pub const PAIR: u8 = 10;
    pub const ENCRYPTION: u8 = 11;
    pub const HASH: u8 = 12;
}

use kind::*;

#[derive(Clone, Copy)]
pub struct Term {
    pub kind: u8,
    pub a: u8,
    pub b: u8,
}

impl Term {
    pub fn is_atom(self) -> bool {
        (TEXT..=LONG_TERM).contains(&self.kind)
    }

    pub fn is_variable(self) -> bool {
        (MESSAGE..=ASYMMETRIC).contains(&self.kind)
    }

    fn code(self) -> u32 {
        u32::from_le_bytes([self.kind, self.a, self.b, 0])
    }

    /// Whatever stands directly inside, carried or not.
    fn parts(self) -> impl Iterator<Item = u8> {
        let (a, b) = match self.kind {
            PUBLIC | INVERSE | HASH => (Some(self.a), None),
            LONG_TERM | PAIR | ENCRYPTION => (Some(self.a), Some(self.b)),
            _ => (None, None),
        };
        a.into_iter().chain(b)
    }
}

pub struct Terms {
    pub count: usize,
    all: [Term; TERM_ROOM],
    codes: [u32; TERM_ROOM],
    inverses: [u8; TERM_ROOM],
    carried: [TermSet; TERM_ROOM],
    /// Tags, variables and atoms: everything that is not put together.
    pub simple: TermSet,
    pub variables: TermSet,
}

impl Terms {
    pub fn none() -> Terms {
        let nothing = Term {
            kind: TAG,
            a: 0,
            b: 0,
        };
        Terms {
            count: 0,
            all: [nothing; TERM_ROOM],
            codes: [0; TERM_ROOM],
            inverses: [NO_IMAGE; TERM_ROOM],
            carried: [TermSet::EMPTY; TERM_ROOM],
            simple: TermSet::EMPTY,
            variables: TermSet::EMPTY,
        }
    }

    #[inline]
    pub fn get(&self, term: u8) -> Term {
        self.all[usize::from(term)]
    }

    #[inline]
    pub fn kind(&self, term: u8) -> u8 {
        self.get(term).kind
    }

    pub fn known(&self, term: u8) -> bool {
        usize::from(term) < self.count
    }

    pub fn find(&self, term: Term) -> Option<u8> {
        let code = term.code();
        let place = self.codes[..self.count].iter().position(|&c| c == code)?;
        Some(place as u8)
    }

    /// The inverse; every key of an accepted sheet has its own there.
    #[inline]
    pub fn inverse(&self, term: u8) -> u8 {
        self.inverses[usize::from(term)]
    }

    pub fn carries(&self, whole: u8, part: u8) -> bool {
        self.carried[usize::from(whole)].has(part)
    }

    pub fn add<S: Slip>(&mut self, term: Term, slip: S) {
        let number = self.count;
        self.all[number] = term;
        self.codes[number] = term.code();
        self.count += 1;
        self.note_inverse(number as u8, term);
        self.note_carried(number as u8, term, slip);
        if term.kind < PAIR {
            self.simple.insert(number as u8);
        }
        if term.is_variable() {
            self.variables.insert(number as u8);
        }
    }

    fn note_inverse(&mut self, number: u8, term: Term) {
        match term.kind {
            ASYMMETRIC | PUBLIC => {}
            INVERSE => {
                self.inverses[usize::from(number)] = term.a;
                self.inverses[usize::from(term.a)] = number;
            }
            _ => self.inverses[usize::from(number)] = number,
        }
    }

    fn note_carried<S: Slip>(&mut self, number: u8, term: Term, slip: S) {
        let (a, b) = (usize::from(term.a), usize::from(term.b));
        let mut carried = match term.kind {
            PAIR => self.carried[a] | self.carried[b],
            ENCRYPTION if slip.is(KEY_CARRIED) => self.carried[a] | self.carried[b],
            ENCRYPTION => self.carried[a],
            HASH if slip.is(HASH_CARRIES) => self.carried[a],
            _ => TermSet::EMPTY,
        };
        carried.insert(number);
        self.carried[usize::from(number)] = carried;
    }

    pub fn lacks_inverse(&self, term: u8) -> bool {
        self.inverse(term) == NO_IMAGE
    }

    /// Everything that occurs in one of these terms.
    pub fn occurring(&self, wholes: TermSet) -> TermSet {
        self.opened(wholes, |_| true)
    }

    /// These terms and all parts of those kinds that are opened. Parts stand before wholes, so
    /// one sweep down the numbers meets each term once.
    pub fn opened(&self, wholes: TermSet, opens: impl Fn(u8) -> bool) -> TermSet {
        let mut found = wholes;
        for number in (0..self.count as u8).rev() {
            let term = self.get(number);
            if found.has(number) && opens(term.kind) {
                for part in term.parts() {
                    found.insert(part);
                }
            }
        }
        found
    }

    /// The variables of an atom.
    pub fn variables_of(&self, atom: u8) -> TermSet {
        let term = self.get(atom);
        let mut found = TermSet::EMPTY;
        match term.kind {
            PUBLIC => found.insert(term.a),
            INVERSE => found = self.variables_of(term.a),
            LONG_TERM => {
                found.insert(term.a);
                found.insert(term.b);
            }
            _ => found.insert(atom),
        }
        found
    }
}
