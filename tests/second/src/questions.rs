//! The questions, each from the bytes of a sheet.

use crate::answer::{answered, verdict, word, Refusal, NO, YES};
use crate::derive::Stranger;
use crate::list::Lister;
use crate::matching::Matching;
use crate::read::Sheet;
use crate::skeleton::{Node, Skeleton};
use crate::slips::*;

fn asked<S: Slip>(
    slip: S,
    bytes: &[u8],
    ask: impl FnOnce(&Sheet<S>) -> Result<u64, Refusal>,
) -> u64 {
    let mut sheet = Sheet::blank(slip);
    answered(sheet.open(bytes).and_then(|()| ask(&sheet)))
}

pub fn sheet<S: Slip>(slip: S, bytes: &[u8]) -> u64 {
    asked(slip, bytes, |sheet| {
        Ok(word(YES, sheet.skeleton_count as u8, 0, sheet.terms.count))
    })
}

pub fn within<S: Slip>(slip: S, bytes: &[u8], t: u8, inside: u8, set: &[u8]) -> u64 {
    asked(slip, bytes, |sheet| {
        sheet.carried_only_within(t, inside, set).map(verdict)
    })
}

pub fn derivable<S: Slip>(slip: S, bytes: &[u8], skeleton: u8, node: (u8, u8), term: u8) -> u64 {
    asked(slip, bytes, |sheet| {
        if !sheet.terms.known(term) {
            return Err(Refusal::NOT_THERE);
        }
        Ok(verdict(sheet.stranger(skeleton, node)?.builds(term)))
    })
}

pub fn reach<S: Slip>(slip: S, bytes: &[u8], skeleton: u8, node: (u8, u8)) -> u64 {
    asked(slip, bytes, |sheet| {
        let reached = sheet.stranger(skeleton, node)?.reached();
        Ok(word(YES, 0, 0, reached.count() as usize))
    })
}

pub fn realized<S: Slip>(slip: S, bytes: &[u8], skeleton: u8) -> u64 {
    asked(slip, bytes, |sheet| {
        let open = sheet.first_open(sheet.skeleton_asked(skeleton)?);
        Ok(match open {
            None => word(YES, 0, 0, 0),
            Some(node) => word(NO, node.strand, node.position, 0),
        })
    })
}

pub fn map<S: Slip>(
    slip: S,
    bytes: &[u8],
    (source, target): (u8, u8),
    map: &[u8],
    images: &mut [u8],
) -> u64 {
    asked(slip, bytes, |sheet| {
        Ok(match sheet.broken_rule((source, target), map, images)? {
            None => word(YES, 0, 0, 0),
            Some(rule) => word(NO, rule, 0, 0),
        })
    })
}

pub fn list<S: Slip>(slip: S, bytes: &[u8], skeletons: (u8, u8), space: &mut [u8]) -> u64 {
    asked(slip, bytes, |sheet| {
        Ok(word(YES, 0, 0, sheet.list(skeletons, space)?))
    })
}

/// How many rounds of decomposing added something before a reception.
pub fn passes(bytes: &[u8], skeleton: u8, node: (u8, u8)) -> u32 {
    counted(bytes, skeleton, node, |stranger| stranger.rounds)
}

/// How many bodies were opened before a reception with a key that was not held but built.
pub fn built_keys(bytes: &[u8], skeleton: u8, node: (u8, u8)) -> u32 {
    counted(bytes, skeleton, node, |stranger| stranger.built_keys)
}

fn counted(
    bytes: &[u8],
    skeleton: u8,
    node: (u8, u8),
    count: impl FnOnce(Stranger<'_, Straight>) -> u32,
) -> u32 {
    let mut sheet = Sheet::blank(Straight);
    let opened = sheet.open(bytes);
    let stranger = opened.and_then(|()| sheet.stranger(skeleton, node));
    stranger.map_or(0, count)
}

impl<S: Slip> Sheet<S> {
    fn skeleton_asked(&self, skeleton: u8) -> Result<&Skeleton, Refusal> {
        let found = self.skeletons().get(usize::from(skeleton));
        found.ok_or(Refusal::NOT_THERE)
    }

    fn stranger(
        &self,
        skeleton: u8,
        (strand, position): (u8, u8),
    ) -> Result<Stranger<'_, S>, Refusal> {
        let skeleton = self.skeleton_asked(skeleton)?;
        let node = Node { strand, position };
        match skeleton.is_reception(node) {
            true => Ok(Stranger::before(self, skeleton, node)),
            false => Err(Refusal::NOT_THERE),
        }
    }

    /// The first reception that is not realized, by strand, then position.
    pub fn first_open(&self, skeleton: &Skeleton) -> Option<Node> {
        let is_open = |&node: &Node| {
            skeleton.receives(node)
                && !Stranger::before(self, skeleton, node).builds(skeleton.message(node))
        };
        let mut open = skeleton.nodes().filter(is_open);
        match self.slip.is(POSITION_BEFORE_STRAND) {
            true => open.min_by_key(|node| (node.position, node.strand)),
            false => open.next(),
        }
    }

    /// The first rule that the map breaks; the images are written if there is none.
    fn broken_rule(
        &self,
        (source, target): (u8, u8),
        map: &[u8],
        images: &mut [u8],
    ) -> Result<Option<u8>, Refusal> {
        let exact_refused = usize::from(self.slip.is(IMAGES_EXACT_REFUSED));
        let short = images.len() < self.terms.count + exact_refused;
        if short && self.slip.is(ROOM_BEFORE_15) {
            return Err(Refusal::NO_ROOM);
        }
        let source = self.skeleton_asked(source)?;
        let target = self.skeleton_asked(target)?;
        if short && !self.slip.is(RULES_BEFORE_ROOM) {
            return Err(Refusal::NO_ROOM);
        }
        let mut matching = Matching::new(self, source, target);
        let broken = matching.broken_rule(map);
        if broken.is_none() && short {
            return Err(Refusal::NO_ROOM);
        }
        let late = broken.is_some_and(|rule| rule > 3) && !short;
        if broken.is_none() || late && self.slip.is(NO_WRITES_IMAGES) {
            matching.write_images(images);
        }
        Ok(broken)
    }

    /// Writes all maps end to end and gives their number.
    pub fn list(&self, (source, target): (u8, u8), space: &mut [u8]) -> Result<usize, Refusal> {
        let source = self.skeleton_asked(source)?;
        let target = self.skeleton_asked(target)?;
        let mut lister = Lister::new(Matching::new(self, source, target), space.len());
        lister.list();
        let refused = lister.too_many;
        if !refused || self.slip.is(REFUSED_LIST_WRITTEN) {
            space[..lister.found.len()].copy_from_slice(&lister.found);
        }
        match refused {
            true => Err(Refusal::NO_ROOM),
            false => Ok(lister.found.len() / source.strand_count),
        }
    }
}
