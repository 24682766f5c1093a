//! Reading a sheet record by record.

use crate::answer::Refusal;
use crate::limits::*;
use crate::skeleton::{Node, Skeleton, Strand};
use crate::slips::*;
use crate::terms::{kind::*, Term, Terms};

pub struct Sheet<S> {
    pub slip: S,
    pub terms: Terms,
    pub skeleton_count: usize,
    skeletons: [Skeleton; SKELETONS],
}

/// What was read last, which decides what may stand next.
#[derive(Clone, Copy, PartialEq)]
enum Stage {
    Nothing,
    Terms,
    Skeleton,
    Strands,
    Pairs,
    Nons,
    Uniques,
    End,
}

/// A record's stage and length, or the number of its refusal.
type Record = Result<(Stage, usize), u8>;

impl<S: Slip> Sheet<S> {
    pub fn blank(slip: S) -> Sheet<S> {
        Sheet {
            slip,
            terms: Terms::none(),
            skeleton_count: 0,
            skeletons: [Skeleton::EMPTY; SKELETONS],
        }
    }

    pub fn skeletons(&self) -> &[Skeleton] {
        &self.skeletons[..self.skeleton_count]
    }

    pub fn skeletons_mut(&mut self) -> (&Terms, &mut [Skeleton]) {
        (&self.terms, &mut self.skeletons[..self.skeleton_count])
    }

    /// Reads up to EN and gives the offset behind it.
    pub fn read(&mut self, bytes: &[u8]) -> Result<usize, Refusal> {
        let mut stage = Stage::Nothing;
        let (mut at, mut last) = (0, 0);
        while stage != Stage::End {
            let rest = &bytes[at..];
            let place = match self.slip.is(END_AT_LAST_RECORD) && rest.is_empty() {
                true => last,
                false => at,
            };
            let (next, length) = self
                .record(stage, rest)
                .map_err(|number| Refusal::at(number, place))?;
            stage = next;
            last = at;
            at += length;
        }
        Ok(at)
    }

    fn record(&mut self, stage: Stage, rest: &[u8]) -> Record {
        use Stage::*;
        let &[first, second, ref fields @ ..] = rest else {
            let lone_byte = !rest.is_empty() && self.slip.is(LONE_BYTE_2);
            return Err(if lone_byte { 2 } else { 1 });
        };
        match (&[first, second], stage) {
            (b"BS", Nothing) => edition(fields),
            (b"TM", Terms) => self.term(fields),
            (b"SK", Terms | Strands | Pairs | Nons | Uniques) => self.skeleton(),
            (b"ST", Skeleton | Strands) => self.strand(fields),
            (b"OR", Strands | Pairs) => self.pair(fields),
            (b"NO", Strands | Pairs | Nons) => self.non(fields),
            (b"UO", Strands | Pairs | Nons | Uniques) => self.unique(fields),
            (b"EN", Strands | Pairs | Nons | Uniques) => Ok((End, 2)),
            _ => Err(2),
        }
    }

    /// The fields of a record that may not pass a limit. The count comes before completeness.
    fn counted<const N: usize>(&self, fields: &[u8], full: bool) -> Result<[u8; N], u8> {
        let complete = fields.first_chunk().copied().ok_or(1);
        if self.slip.is(LENGTH_BEFORE_COUNT) {
            complete?;
        }
        match full {
            true => Err(4),
            false => complete,
        }
    }

    fn at_limit(&self, count: usize, limit: usize, one_fewer: u8, one_more: u8) -> bool {
        let fewer = usize::from(self.slip.is(one_fewer));
        let more = usize::from(self.slip.is(one_more));
        count >= limit - fewer + more
    }

    fn current(&mut self) -> &mut Skeleton {
        &mut self.skeletons[self.skeleton_count - 1]
    }

    fn term(&mut self, fields: &[u8]) -> Record {
        let full = self.at_limit(self.terms.count, TERMS, TERM_200_REFUSED, TERM_201_TAKEN);
        let [kind, a, b] = self.counted(fields, full)?;
        let term = Term { kind, a, b };
        let exchanged = self.slip.is(EXCHANGE_5_6);
        if !self.well_formed(term) {
            return Err(if exchanged { 6 } else { 5 });
        }
        if self.terms.find(term).is_some() {
            return Err(if exchanged { 5 } else { 6 });
        }
        self.terms.add(term, self.slip);
        Ok((Stage::Terms, 5))
    }

    fn well_formed(&self, Term { kind, a, b }: Term) -> bool {
        let earlier = |term| self.terms.known(term);
        let is = |term, kind| earlier(term) && self.terms.kind(term) == kind;
        match kind {
            TAG..=ASYMMETRIC => b == 0,
            PUBLIC => is(a, NAME) && b == 0,
            INVERSE => (is(a, ASYMMETRIC) || is(a, PUBLIC)) && b == 0,
            LONG_TERM => is(a, NAME) && is(b, NAME),
            PAIR => earlier(a) && earlier(b),
            ENCRYPTION if self.slip.is(MESSAGE_AS_KEY) => earlier(a) && earlier(b),
            ENCRYPTION => earlier(a) && earlier(b) && !is(b, MESSAGE),
            HASH => earlier(a) && b == 0,
            _ => false,
        }
    }

    fn skeleton(&mut self) -> Record {
        if self.skeleton_count == SKELETONS {
            return Err(if self.slip.is(THIRD_SKELETON_2) { 2 } else { 4 });
        }
        self.skeleton_count += 1;
        Ok((Stage::Skeleton, 2))
    }

    fn strand(&mut self, fields: &[u8]) -> Record {
        let strands = self.current().strand_count;
        let full = self.at_limit(strands, STRANDS, STRAND_6_REFUSED, STRAND_7_TAKEN);
        let [height] = self.counted(fields, full)?;
        let height = usize::from(height);
        let too_high = self.at_limit(height, HEIGHT + 1, HEIGHT_16_REFUSED, HEIGHT_17_TAKEN);
        if too_high || height == 0 && !self.slip.is(HEIGHT_0_TAKEN) {
            return Err(4);
        }
        let events = fields.get(1..1 + 2 * height).ok_or(1)?;
        let mut strand = Strand::EMPTY;
        for event in events.chunks_exact(2) {
            if event[0] > 1 || !self.terms.known(event[1]) {
                return Err(7);
            }
            strand.add(event[0] == 1, event[1]);
        }
        self.current().add_strand(strand);
        Ok((Stage::Strands, 3 + events.len()))
    }

    fn pair(&mut self, fields: &[u8]) -> Record {
        let count = self.current().pair_count;
        let full = self.at_limit(count, PAIRS, PAIR_64_REFUSED, PAIR_65_TAKEN);
        let [strand, position, strand_2, position_2] = self.counted(fields, full)?;
        let first = Node { strand, position };
        let second = Node {
            strand: strand_2,
            position: position_2,
        };
        let any_direction = self.slip.is(ANY_DIRECTION);
        let skeleton = self.current();
        if !skeleton.has_node(first) || !skeleton.has_node(second) {
            return Err(7);
        }
        if !any_direction && (skeleton.receives(first) || !skeleton.receives(second)) {
            return Err(7);
        }
        skeleton.add_pair(first, second);
        Ok((Stage::Pairs, 6))
    }

    fn non(&mut self, fields: &[u8]) -> Record {
        let count = self.current().non_count;
        let full = self.at_limit(count, NONS, NON_32_REFUSED, NON_33_TAKEN);
        let atom = self.atom(fields, full)?;
        let skeleton = self.current();
        skeleton.non_count += 1;
        skeleton.non.insert(atom);
        Ok((Stage::Nons, 3))
    }

    fn unique(&mut self, fields: &[u8]) -> Record {
        let count = self.current().unique_count;
        let full = self.at_limit(count, UNIQUES, UNIQUE_32_REFUSED, UNIQUE_33_TAKEN);
        let atom = self.atom(fields, full)?;
        let skeleton = self.current();
        skeleton.unique_count += 1;
        skeleton.unique.insert(atom);
        Ok((Stage::Uniques, 3))
    }

    fn atom(&self, fields: &[u8], full: bool) -> Result<u8, u8> {
        let [atom] = self.counted(fields, full)?;
        match self.terms.known(atom) && self.terms.get(atom).is_atom() {
            true => Ok(atom),
            false => Err(7),
        }
    }
}

fn edition(fields: &[u8]) -> Record {
    match fields.first() {
        None => Err(1),
        Some(&EDITION) => Ok((Stage::Terms, 3)),
        Some(_) => Err(3),
    }
}
