//! Carried only within a set of terms.

use crate::answer::Refusal;
use crate::limits::TERM_ROOM;
use crate::read::Sheet;
use crate::slips::{Slip, HASH_CARRIES, KEY_CARRIED, OWN_MEMBERSHIP, TOP_UNPROTECTED};
use crate::terms::kind::{ENCRYPTION, HASH, PAIR};

impl<S: Slip> Sheet<S> {
    pub fn carried_only_within(&self, t: u8, inside: u8, set: &[u8]) -> Result<bool, Refusal> {
        let known = |term: &u8| self.terms.known(*term);
        if !known(&t) || !known(&inside) || !set.iter().all(known) {
            return Err(Refusal::NOT_THERE);
        }
        let mut protects = [false; TERM_ROOM];
        for &member in set {
            protects[usize::from(member)] = true;
        }
        if self.slip.is(TOP_UNPROTECTED) {
            protects[usize::from(inside)] = false;
        }
        let own_protects = self.slip.is(OWN_MEMBERSHIP) && protects[usize::from(t)];
        Ok(own_protects || !self.exposed(t, inside, &protects))
    }

    /// Whether some carrying path from `inside` down to `t` meets no protecting term above its
    /// end. Parts stand before wholes, so each term is looked at once, rising.
    fn exposed(&self, t: u8, inside: u8, protects: &[bool; TERM_ROOM]) -> bool {
        let mut exposed = [false; TERM_ROOM];
        for number in t..=inside {
            let term = self.terms.get(number);
            let (a, b) = (usize::from(term.a), usize::from(term.b));
            let below = match term.kind {
                PAIR => exposed[a] || exposed[b],
                ENCRYPTION => exposed[a] || self.slip.is(KEY_CARRIED) && exposed[b],
                HASH => self.slip.is(HASH_CARRIES) && exposed[a],
                _ => false,
            };
            let number = usize::from(number);
            exposed[number] = number == usize::from(t) || below && !protects[number];
        }
        exposed[usize::from(inside)]
    }
}
