//! A skeleton: strands of events, precedence, and the atoms assumed about.

use crate::limits::*;
use crate::slips::{Slip, NO_SUCCESSION, PAIRS_REVERSED};
use crate::termset::TermSet;

#[derive(Clone, Copy, PartialEq, Eq)]
pub struct Node {
    pub strand: u8,
    pub position: u8,
}

impl Node {
    pub const FIRST: Node = Node {
        strand: 0,
        position: 0,
    };

    pub fn new(strand: usize, position: usize) -> Node {
        Node {
            strand: strand as u8,
            position: position as u8,
        }
    }

    #[inline]
    pub fn index(self) -> usize {
        usize::from(self.strand) * HEIGHT_ROOM + usize::from(self.position)
    }

    fn bit(self) -> u128 {
        1 << self.index()
    }
}

#[derive(Clone, Copy)]
pub struct Strand {
    pub height: usize,
    pub messages: [u8; HEIGHT_ROOM],
    /// Bit p stands for position p.
    receptions: u32,
}

impl Strand {
    pub const EMPTY: Strand = Strand {
        height: 0,
        messages: [0; HEIGHT_ROOM],
        receptions: 0,
    };

    pub fn add(&mut self, reception: bool, message: u8) {
        self.messages[self.height] = message;
        self.receptions |= u32::from(reception) << self.height;
        self.height += 1;
    }

    pub fn receives(&self, position: usize) -> bool {
        self.receptions >> position & 1 == 1
    }

    pub fn messages(&self) -> &[u8] {
        &self.messages[..self.height]
    }

    /// Whether the other strand begins with the same directions.
    pub fn shape_fits(&self, other: &Strand) -> bool {
        let events = (1 << self.height) - 1;
        other.height >= self.height && (self.receptions ^ other.receptions) & events == 0
    }
}

pub struct Skeleton {
    pub strand_count: usize,
    strands: [Strand; STRAND_ROOM],
    pub pair_count: usize,
    pairs: [(Node, Node); PAIR_ROOM],
    /// Records read, repeats included.
    pub non_count: usize,
    pub unique_count: usize,
    pub non: TermSet,
    pub unique: TermSet,
    /// For each node the nodes that precede it.
    before: [u128; NODE_ROOM],
    /// For each uniquely originating atom its origin.
    pub origins: [Node; TERM_ROOM],
}

impl Skeleton {
    pub const EMPTY: Skeleton = Skeleton {
        strand_count: 0,
        strands: [Strand::EMPTY; STRAND_ROOM],
        pair_count: 0,
        pairs: [(Node::FIRST, Node::FIRST); PAIR_ROOM],
        non_count: 0,
        unique_count: 0,
        non: TermSet::EMPTY,
        unique: TermSet::EMPTY,
        before: [0; NODE_ROOM],
        origins: [Node::FIRST; TERM_ROOM],
    };

    pub fn add_strand(&mut self, strand: Strand) {
        self.strands[self.strand_count] = strand;
        self.strand_count += 1;
    }

    pub fn add_pair(&mut self, first: Node, second: Node) {
        self.pairs[self.pair_count] = (first, second);
        self.pair_count += 1;
    }

    pub fn strands(&self) -> &[Strand] {
        &self.strands[..self.strand_count]
    }

    pub fn pairs(&self) -> &[(Node, Node)] {
        &self.pairs[..self.pair_count]
    }

    pub fn has_node(&self, node: Node) -> bool {
        let strand = self.strands().get(usize::from(node.strand));
        strand.is_some_and(|strand| usize::from(node.position) < strand.height)
    }

    pub fn receives(&self, node: Node) -> bool {
        self.strands[usize::from(node.strand)].receives(usize::from(node.position))
    }

    pub fn is_reception(&self, node: Node) -> bool {
        self.has_node(node) && self.receives(node)
    }

    #[inline]
    pub fn message(&self, node: Node) -> u8 {
        self.strands[usize::from(node.strand)].messages[usize::from(node.position)]
    }

    pub fn messages(&self) -> TermSet {
        let mut all = TermSet::EMPTY;
        for strand in self.strands() {
            for &message in strand.messages() {
                all.insert(message);
            }
        }
        all
    }

    pub fn nodes(&self) -> impl Iterator<Item = Node> + '_ {
        let strands = self.strands().iter().enumerate();
        strands.flat_map(|(s, strand)| (0..strand.height).map(move |p| Node::new(s, p)))
    }

    #[inline]
    pub fn precedes(&self, first: Node, second: Node) -> bool {
        self.before[second.index()] & first.bit() != 0
    }

    /// Works out precedence; false if it has a cycle. A node is settled once everything
    /// directly before it is.
    pub fn settle_precedence<S: Slip>(&mut self, slip: S) -> bool {
        let direct = self.directly_before(slip);
        let mut waiting = self.nodes().fold(0, |all, node| all | node.bit());
        while waiting != 0 {
            let still = waiting;
            for index in bits(still) {
                if direct[index] & waiting == 0 {
                    let earlier = bits(direct[index]).map(|n| self.before[n]);
                    self.before[index] = earlier.fold(direct[index], |all, more| all | more);
                    waiting &= !(1 << index);
                }
            }
            if waiting == still {
                return false;
            }
        }
        true
    }

    fn directly_before<S: Slip>(&self, slip: S) -> [u128; NODE_ROOM] {
        let mut direct = [0; NODE_ROOM];
        if !slip.is(NO_SUCCESSION) {
            for node in self.nodes().filter(|node| node.position > 0) {
                direct[node.index()] = 1 << (node.index() - 1);
            }
        }
        for &(first, second) in self.pairs() {
            if slip.is(PAIRS_REVERSED) {
                direct[first.index()] |= second.bit();
            } else {
                direct[second.index()] |= first.bit();
            }
        }
        direct
    }
}

fn bits(mut set: u128) -> impl Iterator<Item = usize> {
    std::iter::from_fn(move || {
        if set == 0 {
            return None;
        }
        let index = set.trailing_zeros() as usize;
        set &= set - 1;
        Some(index)
    })
}
