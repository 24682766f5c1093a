//! What a stranger can derive before a reception: what he holds is decomposed as far as
//! possible, then the term asked for is built.
//!
//! Every part of a term and every inverse of a key stands on the sheet, so the sheet's own terms
//! are enough to look at.

use crate::read::Sheet;
use crate::skeleton::{Node, Skeleton};
use crate::slips::*;
use crate::terms::{kind::*, Terms};
use crate::termset::TermSet;

pub struct Stranger<'a, S> {
    slip: S,
    terms: &'a Terms,
    /// Messages sent earlier and what has been taken out of them.
    held: TermSet,
    /// Everything known to be buildable; it stays so when more is held.
    built: TermSet,
    /// What could not be built when it was last tried in this round.
    missing: TermSet,
    /// Rounds of decomposing that added something.
    pub rounds: u32,
    /// Bodies opened with a key that was not held but put together.
    pub built_keys: u32,
}

impl<'a, S: Slip> Stranger<'a, S> {
    pub fn before(sheet: &'a Sheet<S>, skeleton: &Skeleton, reception: Node) -> Self {
        let held = earlier_messages(skeleton, reception, sheet.slip);
        let free = free_terms(&sheet.terms, skeleton, sheet.slip);
        let mut stranger = Stranger {
            slip: sheet.slip,
            terms: &sheet.terms,
            held,
            built: held | free,
            missing: TermSet::EMPTY,
            rounds: 0,
            built_keys: 0,
        };
        stranger.decompose();
        stranger
    }

    fn decompose(&mut self) {
        while self.round() {
            self.rounds += 1;
            if self.slip.is(ONE_ROUND) {
                break;
            }
        }
        self.missing = TermSet::EMPTY;
    }

    /// Takes apart what is held, wholes before parts; says whether anything was added.
    fn round(&mut self) -> bool {
        let held = self.held;
        self.missing = TermSet::EMPTY;
        for number in (0..self.terms.count as u8).rev() {
            if self.held.has(number) {
                self.take_apart(number);
            }
        }
        self.held != held
    }

    fn take_apart(&mut self, whole: u8) {
        let term = self.terms.get(whole);
        match term.kind {
            PAIR => {
                let some_held = self.held.has(term.a) || self.held.has(term.b);
                if !(self.slip.is(PAIR_AS_PRINTED) && some_held) {
                    self.hold(term.a);
                    self.hold(term.b);
                }
            }
            ENCRYPTION if !self.held.has(term.a) => self.decrypt(term.a, term.b),
            HASH if self.slip.is(HASH_OPENED) => self.hold(term.a),
            _ => {}
        }
    }

    fn decrypt(&mut self, body: u8, key: u8) {
        let needed = match self.slip.is(SAME_KEY_DECRYPTS) {
            true => key,
            false => self.terms.inverse(key),
        };
        if self.has_key(needed) {
            let compound = !self.terms.simple.has(needed);
            self.built_keys += u32::from(compound && !self.held.has(needed));
            self.hold(body);
        }
    }

    fn has_key(&mut self, key: u8) -> bool {
        let compound = !self.terms.simple.has(key);
        if self.slip.is(KEY_ONLY_HELD) || self.slip.is(COMPOUND_KEY_HELD) && compound {
            return self.held.has(key);
        }
        self.builds(key)
    }

    fn hold(&mut self, term: u8) {
        self.held.insert(term);
        self.built.insert(term);
    }

    /// Whether the term can be built from what is held; no term is tried twice in a round.
    pub fn builds(&mut self, number: u8) -> bool {
        if self.built.has(number) {
            return true;
        }
        if self.missing.has(number) {
            return false;
        }
        let term = self.terms.get(number);
        let builds = match term.kind {
            PAIR | ENCRYPTION => self.builds(term.a) && self.builds(term.b),
            HASH => self.builds(term.a),
            _ => false,
        };
        match builds {
            true => self.built.insert(number),
            false => self.missing.insert(number),
        }
        builds
    }

    /// All terms of the sheet that can be derived.
    pub fn reached(&mut self) -> TermSet {
        let mut reached = TermSet::EMPTY;
        for number in 0..self.terms.count as u8 {
            if self.builds(number) {
                reached.insert(number);
            }
        }
        reached
    }
}

fn earlier_messages<S: Slip>(skeleton: &Skeleton, reception: Node, slip: S) -> TermSet {
    let mut earlier = TermSet::EMPTY;
    for node in skeleton.nodes() {
        let precedes = skeleton.precedes(node, reception) || slip.is(ALL_SENDS_EARLIER);
        if precedes && !skeleton.receives(node) {
            earlier.insert(skeleton.message(node));
        }
    }
    earlier
}

/// Tags, message variables and the atoms not withheld.
fn free_terms<S: Slip>(terms: &Terms, skeleton: &Skeleton, slip: S) -> TermSet {
    let mut withheld = TermSet::EMPTY;
    if !slip.is(NON_NOT_WITHHELD) {
        withheld |= skeleton.non;
    }
    if !slip.is(UNIQUE_NOT_WITHHELD) {
        withheld |= skeleton.unique;
    }
    if slip.is(INVERSE_WITHHELD) {
        for atom in withheld.rising() {
            withheld.insert(terms.inverse(atom));
        }
    }
    if slip.is(TAG_NOT_FREE) {
        withheld |= of_kind(terms, TAG);
    }
    if slip.is(MESSAGE_NOT_FREE) {
        withheld |= of_kind(terms, MESSAGE);
    }
    terms.simple - withheld
}

fn of_kind(terms: &Terms, kind: u8) -> TermSet {
    let mut found = TermSet::EMPTY;
    for number in terms.simple.rising() {
        if terms.kind(number) == kind {
            found.insert(number);
        }
    }
    found
}
