//! A strand map between two skeletons and its six rules.

use crate::limits::*;
use crate::read::Sheet;
use crate::skeleton::{Node, Skeleton};
use crate::slips::*;
use crate::terms::{kind::*, Term, Terms};

/// A strand map in the making, with the substitution that it asks for.
pub struct Matching<'a, S> {
    pub slip: S,
    pub terms: &'a Terms,
    pub source: &'a Skeleton,
    pub target: &'a Skeleton,
    pub map: [u8; STRAND_ROOM],
    /// The image of every part of the messages matched so far, not only of variables: so a
    /// part that stands in many places is matched once.
    images: [u8; TERM_ROOM],
    /// The terms with images, in the order they got them.
    trail: [u8; TERM_ROOM],
    pub trail_length: usize,
}

impl<'a, S: Slip> Matching<'a, S> {
    pub fn new(sheet: &'a Sheet<S>, source: &'a Skeleton, target: &'a Skeleton) -> Self {
        Matching {
            slip: sheet.slip,
            terms: &sheet.terms,
            source,
            target,
            map: [0; STRAND_ROOM],
            images: [NO_IMAGE; TERM_ROOM],
            trail: [0; TERM_ROOM],
            trail_length: 0,
        }
    }

    /// The first rule that the whole map breaks.
    pub fn broken_rule(&mut self, map: &[u8]) -> Option<u8> {
        let source = self.source;
        let strands = source.strand_count;
        if !self.names_strands(map) {
            return Some(1);
        }
        self.map[..strands].copy_from_slice(&map[..strands]);
        if !(0..strands).all(|strand| self.shape_fits(strand)) {
            return Some(2);
        }
        if !(0..strands).all(|strand| self.messages_fit(strand)) {
            return Some(3);
        }
        if !source.pairs().iter().all(|&pair| self.pair_kept(pair)) {
            return Some(4);
        }
        if !source.non.rising().all(|atom| self.non_kept(atom)) {
            return Some(5);
        }
        if !source.unique.rising().all(|atom| self.unique_kept(atom)) {
            return Some(6);
        }
        None
    }

    /// Rule 1.
    fn names_strands(&self, map: &[u8]) -> bool {
        let strands = self.source.strand_count;
        let long_enough = match self.slip.is(LONG_MAP_TAKEN) {
            true => map.len() >= strands,
            false => map.len() == strands,
        };
        let is_strand = |&strand: &u8| usize::from(strand) < self.target.strand_count;
        long_enough && map[..strands].iter().all(is_strand)
    }

    /// Rule 2 for one strand.
    pub fn shape_fits(&self, strand: usize) -> bool {
        let image = &self.target.strands()[usize::from(self.map[strand])];
        self.slip.is(NO_RULE_2) || self.source.strands()[strand].shape_fits(image)
    }

    /// Rule 3 for one strand, given the images so far.
    pub fn messages_fit(&mut self, strand: usize) -> bool {
        let image = &self.target.strands()[usize::from(self.map[strand])];
        let messages = self.source.strands()[strand].messages();
        for (&message, &goal) in messages.iter().zip(image.messages()) {
            if !self.match_term(message, goal) && !self.slip.is(NO_RULE_3) {
                return false;
            }
        }
        true
    }

    /// Gives every part of `from` the image it needs for `from` to become `to`.
    fn match_term(&mut self, from: u8, to: u8) -> bool {
        let image = self.images[usize::from(from)];
        if image != NO_IMAGE {
            return image == to;
        }
        let (term, goal) = (self.terms.get(from), self.terms.get(to));
        let fits = match term.kind {
            TAG => from == to,
            INVERSE => self.match_inverse(term, to),
            PUBLIC | HASH => term.kind == goal.kind && self.match_term(term.a, goal.a),
            LONG_TERM | PAIR | ENCRYPTION => {
                term.kind == goal.kind
                    && self.match_term(term.a, goal.a)
                    && self.match_term(term.b, goal.b)
            }
            _ => self.sort_kept(term.kind, goal.kind) && !self.image_barred(to),
        };
        if fits {
            self.images[usize::from(from)] = to;
            self.trail[self.trail_length] = from;
            self.trail_length += 1;
        }
        fits
    }

    /// The inverse of a key becomes `to` exactly when the key becomes the inverse of `to`.
    fn match_inverse(&mut self, term: Term, to: u8) -> bool {
        match self.terms.kind(to) {
            ASYMMETRIC | PUBLIC if self.slip.is(INVERSE_KEPT) => false,
            ASYMMETRIC | PUBLIC | INVERSE => self.match_term(term.a, self.terms.inverse(to)),
            _ => false,
        }
    }

    fn sort_kept(&self, variable: u8, goal: u8) -> bool {
        match variable {
            MESSAGE => goal < PAIR || !self.slip.is(MESSAGE_TO_SIMPLE),
            SYMMETRIC if self.slip.is(LONG_TERM_NO_IMAGE) => goal == SYMMETRIC,
            SYMMETRIC => goal == SYMMETRIC || goal == LONG_TERM,
            ASYMMETRIC => (ASYMMETRIC..=INVERSE).contains(&goal),
            _ => goal == variable,
        }
    }

    fn image_barred(&self, to: u8) -> bool {
        self.slip.is(IMAGES_APART)
            && self.trail[..self.trail_length]
                .iter()
                .any(|&term| self.terms.variables.has(term) && self.images[usize::from(term)] == to)
    }

    pub fn forget_from(&mut self, trail_length: usize) {
        for &term in &self.trail[trail_length..self.trail_length] {
            self.images[usize::from(term)] = NO_IMAGE;
        }
        self.trail_length = trail_length;
    }

    #[inline]
    fn node_image(&self, node: Node) -> Node {
        Node {
            strand: self.map[usize::from(node.strand)],
            position: node.position,
        }
    }

    /// Rule 4 for one pair. Succession is kept by rule 2, and what follows from both is kept
    /// because the target's precedence is transitive.
    pub fn pair_kept(&self, (first, second): (Node, Node)) -> bool {
        let (first, second) = (self.node_image(first), self.node_image(second));
        self.slip.is(NO_RULE_4) || self.target.precedes(first, second)
    }

    /// Rule 5 for one atom.
    pub fn non_kept(&self, atom: u8) -> bool {
        self.slip.is(NO_RULE_5) || self.target.non.has(self.atom_image(atom))
    }

    /// Rule 6 for one atom.
    pub fn unique_kept(&self, atom: u8) -> bool {
        if self.slip.is(NO_RULE_6) {
            return true;
        }
        let image = self.atom_image(atom);
        let origin = self.node_image(self.source.origins[usize::from(atom)]);
        let origin_kept = self.target.origins[usize::from(image)] == origin;
        self.target.unique.has(image) && (origin_kept || self.slip.is(NO_ORIGIN_IN_6))
    }

    /// The image of an atom all of whose variables have theirs, if it is on the sheet.
    fn atom_image(&self, atom: u8) -> u8 {
        let image = self.images[usize::from(atom)];
        if image != NO_IMAGE {
            return image;
        }
        let Term { kind, a, b } = self.terms.get(atom);
        let made = match kind {
            PUBLIC => Term {
                kind,
                a: self.atom_image(a),
                b: 0,
            },
            LONG_TERM => Term {
                kind,
                a: self.atom_image(a),
                b: self.atom_image(b),
            },
            INVERSE => return self.inverse_image(self.atom_image(a)),
            _ => return NO_IMAGE,
        };
        self.terms.find(made).unwrap_or(NO_IMAGE)
    }

    fn inverse_image(&self, key: u8) -> u8 {
        if self.slip.is(INVERSE_KEPT) && self.terms.kind(key) == INVERSE {
            return NO_IMAGE;
        }
        self.terms.inverse(key)
    }

    /// One byte per term: the images of the source's variables.
    pub fn write_images(&self, table: &mut [u8]) {
        let none = if self.slip.is(IMAGE_0) { 0 } else { NO_IMAGE };
        for (term, place) in table[..self.terms.count].iter_mut().enumerate() {
            let image = self.images[term];
            let shown = self.terms.variables.has(term as u8) && image != NO_IMAGE;
            *place = if shown { image } else { none };
        }
    }
}
