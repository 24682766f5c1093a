//! Listing all strand maps from one skeleton to another.

use crate::limits::*;
use crate::matching::Matching;
use crate::skeleton::{Node, Skeleton};
use crate::slips::{Slip, LAST_STRAND_SLOWEST, LIST_EXACT_REFUSED};
use crate::terms::Terms;
use crate::termset::TermSet;

/// The most bytes that all maps can take.
const MOST: usize = STRANDS.pow(STRANDS as u32) * STRANDS;

/// Tries every target strand for each source strand in order. What a rule says is asked as soon
/// as the strands given so far decide it.
pub struct Lister<'a, S> {
    matching: Matching<'a, S>,
    /// Pairs, NO and UO atoms by the strand that decides them.
    pairs: Due<(Node, Node), PAIR_ROOM>,
    non: Due<u8, TERM_ROOM>,
    unique: Due<u8, TERM_ROOM>,
    /// The maps found, end to end, and the most bytes they may take.
    pub found: Vec<u8>,
    room: usize,
    pub too_many: bool,
}

impl<'a, S: Slip> Lister<'a, S> {
    pub fn new(matching: Matching<'a, S>, room: usize) -> Self {
        let (terms, source) = (matching.terms, matching.source);
        let known_at = variables_known_at(terms, source);
        let decided_at = |&atom: &u8| {
            let variables = terms.variables_of(atom).rising();
            let known = variables.map(|variable| known_at[usize::from(variable)]);
            known.max().unwrap_or(0)
        };
        let origin_at = |&atom: &u8| usize::from(source.origins[usize::from(atom)].strand);
        let later_of = |pair: &(Node, Node)| usize::from(pair.0.strand.max(pair.1.strand));
        let pairs = source.pairs().iter().copied();
        Lister {
            pairs: Due::sorted(pairs, (Node::FIRST, Node::FIRST), later_of),
            non: Due::sorted(source.non.rising(), 0, decided_at),
            unique: Due::sorted(source.unique.rising(), 0, origin_at),
            matching,
            found: Vec::with_capacity(room.min(MOST)),
            room,
            too_many: false,
        }
    }

    pub fn list(&mut self) {
        self.extend(0);
        if self.matching.slip.is(LAST_STRAND_SLOWEST) {
            let strands = self.matching.source.strand_count;
            let mut maps: Vec<Vec<u8>> = self.found.chunks(strands).map(<[u8]>::to_vec).collect();
            maps.sort_by(|one, other| one.iter().rev().cmp(other.iter().rev()));
            self.found = maps.concat();
        }
    }

    fn extend(&mut self, strand: usize) {
        if strand == self.matching.source.strand_count {
            return self.note();
        }
        let trail_length = self.matching.trail_length;
        for image in 0..self.matching.target.strand_count {
            self.matching.map[strand] = image as u8;
            if self.fits(strand) {
                self.extend(strand + 1);
            }
            self.matching.forget_from(trail_length);
            if self.too_many {
                return;
            }
        }
    }

    fn fits(&mut self, strand: usize) -> bool {
        let Lister {
            matching,
            pairs,
            non,
            unique,
            ..
        } = self;
        matching.shape_fits(strand)
            && pairs.at(strand).all(|pair| matching.pair_kept(pair))
            && matching.messages_fit(strand)
            && non.at(strand).all(|atom| matching.non_kept(atom))
            && unique.at(strand).all(|atom| matching.unique_kept(atom))
    }

    fn note(&mut self) {
        let map = &self.matching.map[..self.matching.source.strand_count];
        let needed = self.found.len() + map.len();
        self.too_many = match self.matching.slip.is(LIST_EXACT_REFUSED) {
            true => needed >= self.room,
            false => needed > self.room,
        };
        if !self.too_many {
            self.found.extend_from_slice(map);
        }
    }
}

/// For each variable the first strand in which it occurs.
fn variables_known_at(terms: &Terms, source: &Skeleton) -> [usize; TERM_ROOM] {
    let mut known_at = [0; TERM_ROOM];
    let mut known = TermSet::EMPTY;
    for (number, strand) in source.strands().iter().enumerate() {
        let mut messages = TermSet::EMPTY;
        for &message in strand.messages() {
            messages.insert(message);
        }
        let here = terms.occurring(messages) & terms.variables;
        for variable in (here - known).rising() {
            known_at[usize::from(variable)] = number;
        }
        known |= here;
    }
    known_at
}

/// Things sorted by the strand at which they fall due.
struct Due<T, const ROOM: usize> {
    things: [T; ROOM],
    starts: [usize; STRAND_ROOM + 1],
}

impl<T: Copy, const ROOM: usize> Due<T, ROOM> {
    fn sorted(
        things: impl Iterator<Item = T> + Clone,
        filler: T,
        strand_of: impl Fn(&T) -> usize,
    ) -> Self {
        let mut due = Due {
            things: [filler; ROOM],
            starts: [0; STRAND_ROOM + 1],
        };
        let mut filled = 0;
        for strand in 0..STRAND_ROOM {
            due.starts[strand] = filled;
            for thing in things.clone().filter(|thing| strand_of(thing) == strand) {
                due.things[filled] = thing;
                filled += 1;
            }
        }
        due.starts[STRAND_ROOM] = filled;
        due
    }

    #[inline]
    fn at(&self, strand: usize) -> impl Iterator<Item = T> + '_ {
        let due = self.starts[strand]..self.starts[strand + 1];
        self.things[due].iter().copied()
    }
}
