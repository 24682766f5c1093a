//! What is judged once EN has been read: refusals 8 to 14.

use crate::answer::Refusal;
use crate::limits::SKELETONS;
use crate::read::Sheet;
use crate::skeleton::{Node, Skeleton};
use crate::slips::*;
use crate::terms::{kind::*, Terms};
use crate::termset::TermSet;

impl<S: Slip> Sheet<S> {
    /// Reads and judges a whole sheet.
    pub fn open(&mut self, bytes: &[u8]) -> Result<(), Refusal> {
        let end = self.read(bytes)?;
        let trailing = match end < bytes.len() {
            true => Err(Refusal::at(8, end)),
            false => Ok(()),
        };
        if self.slip.is(EIGHT_AFTER_9) {
            self.check_inverses()?;
            trailing?;
        } else {
            trailing?;
            self.check_inverses()?;
        }
        self.check_skeletons()
    }

    fn check_inverses(&self) -> Result<(), Refusal> {
        let mut keys = (0..self.terms.count as u8).filter(|&term| match self.terms.kind(term) {
            ASYMMETRIC => self.terms.lacks_inverse(term),
            PUBLIC => self.terms.lacks_inverse(term) && !self.slip.is(PUBLIC_WITHOUT_INVERSE),
            _ => false,
        });
        let lacking = match self.slip.is(HIGHEST_9) {
            true => keys.last(),
            false => keys.next(),
        };
        match lacking {
            Some(key) => Err(Refusal::at(9, usize::from(key))),
            None => Ok(()),
        }
    }

    fn check_skeletons(&mut self) -> Result<(), Refusal> {
        let slip = self.slip;
        let mut occurring = [TermSet::EMPTY; SKELETONS];
        for (found, skeleton) in occurring.iter_mut().zip(self.skeletons()) {
            *found = self.terms.occurring(skeleton.messages());
        }
        if slip.is(BOTH_SKELETONS_14) {
            occurring = [occurring[0] | occurring[1]; SKELETONS];
        }
        let (terms, skeletons) = self.skeletons_mut();
        for (number, skeleton) in skeletons.iter_mut().enumerate() {
            let named = if slip.is(SKELETON_0_NAMED) { 0 } else { number };
            let checked = check_skeleton(terms, skeleton, occurring[number], slip);
            checked.map_err(|(fault, place)| Refusal {
                number: exchange(fault, slip),
                skeleton: named as u8,
                place: usize::from(place),
            })?;
        }
        Ok(())
    }
}

/// A refusal's number and place.
type Fault = (u8, u8);

fn exchange<S: Slip>(number: u8, slip: S) -> u8 {
    match number {
        12 if slip.is(EXCHANGE_12_13) => 13,
        13 if slip.is(EXCHANGE_12_13) => 12,
        10 if slip.is(EXCHANGE_10_14) => 14,
        14 if slip.is(EXCHANGE_10_14) => 10,
        number => number,
    }
}

fn check_skeleton<S: Slip>(
    terms: &Terms,
    skeleton: &mut Skeleton,
    occurring: TermSet,
    slip: S,
) -> Result<(), Fault> {
    if !skeleton.settle_precedence(slip) && !slip.is(CYCLE_TAKEN) {
        return Err((10, 0));
    }
    in_turn(skeleton.non, slip, |atom| {
        check_non(terms, skeleton, atom, occurring, slip)
    })?;
    in_turn(skeleton.unique, slip, |atom| {
        check_unique(terms, skeleton, atom, slip)
    })
}

fn in_turn<S: Slip>(
    atoms: TermSet,
    slip: S,
    mut check: impl FnMut(u8) -> Result<(), Fault>,
) -> Result<(), Fault> {
    if slip.is(FALLING_ATOMS) {
        return atoms.rising().rev().try_for_each(check);
    }
    atoms.rising().try_for_each(&mut check)
}

fn check_non<S: Slip>(
    terms: &Terms,
    skeleton: &Skeleton,
    atom: u8,
    occurring: TermSet,
    slip: S,
) -> Result<(), Fault> {
    if !(terms.variables_of(atom) - occurring).is_empty() {
        return Err((14, atom));
    }
    let messages = skeleton.messages();
    let mut carried = messages.rising().any(|whole| terms.carries(whole, atom));
    if slip.is(KEY_CARRIED_IN_11) {
        let opened = terms.opened(messages, |kind| kind == PAIR || kind == ENCRYPTION);
        carried |= opened.has(atom);
    }
    match carried {
        true => Err((11, atom)),
        false => Ok(()),
    }
}

fn check_unique<S: Slip>(
    terms: &Terms,
    skeleton: &mut Skeleton,
    atom: u8,
    slip: S,
) -> Result<(), Fault> {
    let Some(origin) = only_origin(terms, skeleton, atom, slip) else {
        return Err((12, atom));
    };
    if !received_after(terms, skeleton, atom, origin, slip) {
        return Err((13, atom));
    }
    skeleton.origins[usize::from(atom)] = origin;
    Ok(())
}

/// Whether every reception that carries the atom comes after its origin.
fn received_after<S: Slip>(
    terms: &Terms,
    skeleton: &Skeleton,
    atom: u8,
    origin: Node,
    slip: S,
) -> bool {
    let carries = |&node: &Node| terms.carries(skeleton.message(node), atom);
    let receptions = skeleton.nodes().filter(|&node| skeleton.receives(node));
    let mut carriers = receptions.filter(carries);
    let after = |node: Node| skeleton.precedes(origin, node);
    match slip.is(FIRST_RECEPTION_13) {
        true => carriers.next().is_none_or(after),
        false => carriers.all(after),
    }
}

/// The origin of an atom that originates on exactly one strand.
fn only_origin<S: Slip>(terms: &Terms, skeleton: &Skeleton, atom: u8, slip: S) -> Option<Node> {
    let mut origins = (0..skeleton.strand_count).filter_map(|s| {
        let strand = &skeleton.strands()[s];
        let mut carriers = (0..strand.height).filter(|&p| terms.carries(strand.messages[p], atom));
        let position = match slip.is(LATE_SEND_ORIGINATES) {
            true => carriers.find(|&p| !strand.receives(p)),
            false => carriers.next().filter(|&p| !strand.receives(p)),
        };
        position.map(|p| Node::new(s, p))
    });
    let first = origins.next()?;
    match origins.next() {
        None => Some(first),
        Some(_) => None,
    }
}
