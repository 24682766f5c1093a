//! Questions about a sheet, of all seven kinds, with good and bad arguments.

use std::collections::HashMap;

use crate::analysis::Parts;
use crate::builder::{limit, Node, Sheet, Skeleton};
use crate::rng::Rng;

#[derive(Clone, Debug, PartialEq, Eq)]
pub enum Question {
    Sheet,
    Within {
        term: u8,
        inside: u8,
        set: Vec<u8>,
    },
    Derivable {
        skeleton: u8,
        node: Node,
        term: u8,
    },
    Reach {
        skeleton: u8,
        node: Node,
    },
    Realized {
        skeleton: u8,
    },
    Map {
        source: u8,
        target: u8,
        map: Vec<u8>,
        lent: usize,
    },
    List {
        source: u8,
        target: u8,
        lent: usize,
    },
}

impl Question {
    pub const NAMES: [&'static str; 7] = [
        "sheet",
        "within",
        "derivable",
        "reach",
        "realized",
        "map",
        "list",
    ];

    /// The question's place among the names.
    pub fn number(&self) -> usize {
        match self {
            Question::Sheet => 0,
            Question::Within { .. } => 1,
            Question::Derivable { .. } => 2,
            Question::Reach { .. } => 3,
            Question::Realized { .. } => 4,
            Question::Map { .. } => 5,
            Question::List { .. } => 6,
        }
    }

    pub fn name(&self) -> &'static str {
        Self::NAMES[self.number()]
    }

    /// How many bytes are lent for the answer.
    pub fn lent(&self) -> usize {
        match self {
            Question::Map { lent, .. } | Question::List { lent, .. } => *lent,
            _ => 0,
        }
    }
}

/// The questions for sheet number `index` of the stream of `seed`.
pub fn questions(seed: u64, index: u64, sheet: &[u8]) -> Vec<Question> {
    let mut asker = Asker::new(Rng::of(seed ^ 0x5bd1_e995, index), sheet);
    let kinds: &[u8] = if good(sheet) {
        &[0, 1, 1, 2, 2, 2, 3, 3, 4, 4, 5, 5, 5, 6, 6]
    } else {
        &[
            0,
            asker.rng.below(3) as u8 + 1,
            asker.rng.below(3) as u8 + 4,
        ]
    };
    kinds.iter().map(|&kind| asker.question(kind)).collect()
}

/// The map and the list from one skeleton of a sheet to another, with every length of lent memory
/// that matters; about a bad sheet one of each.
pub fn pair_questions(seed: u64, index: u64, sheet: &[u8]) -> Vec<Question> {
    let mut asker = Asker::new(Rng::of(seed ^ 0x2545_f491, index), sheet);
    if !good(sheet) {
        return vec![asker.map(), asker.list()];
    }
    let (source, target) = asker.skeletons_there_or_not();
    let map = asker.strand_map(source, target);
    let tables = asker.table_lengths().into_iter();
    let maps = tables.map(|lent| Question::Map {
        source,
        target,
        map: map.clone(),
        lent,
    });
    let spaces = asker.space_lengths(source, target).into_iter();
    let lists = spaces.map(|lent| Question::List {
        source,
        target,
        lent,
    });
    maps.chain(lists).collect()
}

fn good(sheet: &[u8]) -> bool {
    second::sheet(sheet) as u8 == 1
}

/// From this many strand maps on, listing is asked twice only: it takes long.
const MANY: usize = 3_000;

struct Asker<'a> {
    rng: Rng,
    sheet: &'a [u8],
    outline: Sheet,
    /// The maps from one skeleton to another, as far as they were asked for already; none if
    /// there are more than the bench has room for.
    lists: HashMap<(u8, u8), Option<Vec<u8>>>,
}

impl<'a> Asker<'a> {
    fn new(rng: Rng, sheet: &'a [u8]) -> Self {
        Asker {
            rng,
            sheet,
            outline: Sheet::read(sheet),
            lists: HashMap::new(),
        }
    }

    fn question(&mut self, kind: u8) -> Question {
        match kind {
            0 => Question::Sheet,
            1 => self.within(),
            2 => self.derivable(),
            3 => {
                let (skeleton, node) = self.reception();
                Question::Reach { skeleton, node }
            }
            4 => Question::Realized {
                skeleton: self.skeleton(),
            },
            5 => self.map(),
            _ => self.list(),
        }
    }

    /// A term number, now and then of no term.
    fn term(&mut self) -> u8 {
        let count = self.outline.terms.len();
        match self.rng.below(40) {
            0 => count as u8,
            1 => *self.rng.pick(&[count.max(1) as u8 - 1, 200, 254, 255]),
            _ => self.rng.below(count.max(1)) as u8,
        }
    }

    fn skeleton(&mut self) -> u8 {
        match self.rng.below(20) {
            0 => *self.rng.pick(&[1, 2, 3, 255]),
            _ => self.rng.below(self.outline.skeletons.len().max(1)) as u8,
        }
    }

    fn drawn(&self, skeleton: u8) -> Skeleton {
        let found = self.outline.skeletons.get(skeleton as usize);
        found.cloned().unwrap_or_default()
    }

    /// A skeleton and a reception of it; now and then some other node, or none.
    fn reception(&mut self) -> (u8, Node) {
        let mut skeleton = self.skeleton();
        if self.drawn(skeleton).receptions().is_empty() && self.rng.chance(9, 10) {
            skeleton ^= 1;
        }
        let drawn = self.drawn(skeleton);
        let receptions = drawn.receptions();
        let node = match self.rng.below(40) {
            0 => self.rng.some(&drawn.sends()).copied(),
            1 => {
                let strand = self.rng.below(drawn.strands.len().max(1));
                let height = drawn.strands.get(strand).map_or(0, Vec::len);
                Some((strand as u8, height as u8))
            }
            2 => Some((drawn.strands.len() as u8, 0)),
            3 => Some((self.rng.byte(), self.rng.byte())),
            4..=15 => receptions.last().copied(),
            _ => self.rng.some(&receptions).copied(),
        };
        (skeleton, node.unwrap_or((0, 0)))
    }

    fn within(&mut self) -> Question {
        let inside = self.term();
        let parts = Parts::of(&self.outline);
        let carried = parts.carried_in(inside);
        let occurring = parts.occurring_in(inside);
        let below = self.outline.numbers_where(|term| carried.has(term));
        let around = self.outline.numbers_where(|term| occurring.has(term));
        let anything = self.term();
        let deep = self.rng.some(&below).copied().unwrap_or(anything);
        let term = if self.rng.chance(1, 6) {
            anything
        } else {
            deep
        };
        let mut set = Vec::new();
        for _ in 0..self.rng.below(5) {
            let any = self.term();
            let near = self.rng.some(&around).copied().unwrap_or(any);
            set.push(match self.rng.below(8) {
                0 => any,
                1 => inside,
                2 => term,
                _ => near,
            });
        }
        Question::Within { term, inside, set }
    }

    fn derivable(&mut self) -> Question {
        let (skeleton, node) = self.reception();
        let drawn = self.drawn(skeleton);
        let any = self.term();
        let term = match self.rng.below(4) {
            0 => {
                let strand = drawn.strands.get(node.0 as usize);
                let event = strand.and_then(|events| events.get(node.1 as usize));
                event.map_or(any, |event| event.term)
            }
            1 | 2 => self.around_withheld(&drawn).unwrap_or(any),
            _ => any,
        };
        Question::Derivable {
            skeleton,
            node,
            term,
        }
    }

    /// A term in which a withheld atom occurs.
    fn around_withheld(&mut self, drawn: &Skeleton) -> Option<u8> {
        let withheld = [&drawn.non_originating[..], &drawn.unique[..]].concat();
        let atom = *self.rng.some(&withheld)?;
        let parts = Parts::of(&self.outline);
        let around = self
            .outline
            .numbers_where(|term| parts.occurring_in(term).has(atom));
        self.rng.some(&around).copied()
    }

    fn pair_of_skeletons(&mut self) -> (u8, u8) {
        if self.outline.skeletons.len() == 2 && self.rng.chance(2, 3) {
            return *self.rng.pick(&[(0, 1), (0, 1), (1, 0)]);
        }
        (self.skeleton(), self.skeleton())
    }

    fn map(&mut self) -> Question {
        let (source, target) = self.pair_of_skeletons();
        let map = self.strand_map(source, target);
        let terms = self.outline.terms.len();
        let lent = match self.rng.below(10) {
            0 => terms.saturating_sub(1),
            1 => 0,
            2 => terms + 1 + self.rng.below(30),
            _ => terms,
        };
        Question::Map {
            source,
            target,
            map,
            lent,
        }
    }

    /// A strand map: one of those there are, one that keeps many rules, or just bytes.
    fn strand_map(&mut self, source: u8, target: u8) -> Vec<u8> {
        let strands = self.drawn(source).strands.len();
        if self.rng.chance(1, 8) {
            let length = (strands + self.rng.below(3)).saturating_sub(1);
            return (0..length).map(|_| self.rng.below(7) as u8).collect();
        }
        if self.rng.chance(1, 2) {
            let maps = self.maps(source, target).unwrap_or_default();
            let each: Vec<&[u8]> = maps.chunks_exact(strands.max(1)).collect();
            if let Some(map) = self.rng.some(&each) {
                return map.to_vec();
            }
        }
        self.likely_map(source, target)
    }

    fn maps(&mut self, source: u8, target: u8) -> Option<Vec<u8>> {
        let strands = self.drawn(source).strands.len();
        let listed = || {
            let mut space = vec![0; limit::LIST_SPACE];
            let answer = second::list(self.sheet, source, target, &mut space);
            space.truncate((answer >> 32) as usize * strands);
            (answer as u8 == 1).then_some(space)
        };
        self.lists
            .entry((source, target))
            .or_insert_with(listed)
            .clone()
    }

    /// Of several maps that keep directions the one that breaks the latest rule.
    fn likely_map(&mut self, source: u8, target: u8) -> Vec<u8> {
        let mut best = (0, Vec::new());
        for _ in 0..5 {
            let map = self.fitting_map(source, target);
            let mut images = [0; 256];
            let answer = second::map(self.sheet, source, target, &map, &mut images);
            let rule = if answer as u8 == 2 {
                (answer >> 8) as u8 + 1
            } else {
                0
            };
            if rule >= best.0 {
                best = (rule, map);
            }
        }
        best.1
    }

    /// Each strand to some strand that is long enough and goes the same way.
    fn fitting_map(&mut self, source: u8, target: u8) -> Vec<u8> {
        let (source, target) = (self.drawn(source), self.drawn(target));
        let all: Vec<u8> = (0..target.strands.len().max(1) as u8).collect();
        let mut map = Vec::new();
        for events in &source.strands {
            let fits = |at: &&u8| {
                let other = target.strands.get(**at as usize);
                other.is_some_and(|other| {
                    let same = events
                        .iter()
                        .zip(other)
                        .all(|(a, b)| a.direction == b.direction);
                    same && other.len() >= events.len()
                })
            };
            let fitting: Vec<u8> = all.iter().filter(fits).copied().collect();
            map.push(
                *self
                    .rng
                    .pick(if fitting.is_empty() { &all } else { &fitting }),
            );
        }
        map
    }

    fn list(&mut self) -> Question {
        let (source, target) = self.pair_of_skeletons();
        let exact = self
            .maps(source, target)
            .map_or(limit::LIST_SPACE, |maps| maps.len());
        let lent = match self.rng.below(6) {
            0 => exact,
            1 => exact.saturating_sub(1),
            2 => exact + self.rng.between(1, 10),
            3 => *self.rng.pick(&[0, 1, 5]),
            _ => limit::LIST_SPACE,
        };
        Question::List {
            source,
            target,
            lent,
        }
    }

    /// Two skeletons that are there; one time in eight at least one that is not.
    fn skeletons_there_or_not(&mut self) -> (u8, u8) {
        let there = self.outline.skeletons.len();
        let (source, target) = (self.rng.below(there) as u8, self.rng.below(there) as u8);
        let missing = *self.rng.pick(&[there as u8, 2, 2, 255]);
        match self.rng.below(24) {
            0 => (missing, target),
            1 => (source, missing),
            2 => (missing, 255),
            _ if there == 2 && self.rng.chance(1, 2) => (0, 1),
            _ => (source, target),
        }
    }

    /// One byte short of an image table, exactly one, and more.
    fn table_lengths(&mut self) -> [usize; 3] {
        let terms = self.outline.terms.len();
        let more = terms + self.rng.between(1, 60);
        [terms.saturating_sub(1), terms, more]
    }

    /// One byte short of all maps, exactly as much, more, none, and what the bench lends.
    fn space_lengths(&mut self, source: u8, target: u8) -> Vec<usize> {
        let exact = self.space_needed(source, target);
        let more = exact + self.rng.between(1, 60);
        let mut lengths = vec![exact.saturating_sub(1), exact, more, 0, limit::LIST_SPACE];
        let strands = |skeleton| self.drawn(skeleton).strands.len();
        if strands(target).pow(strands(source) as u32) > MANY {
            self.rng.shuffle(&mut lengths);
            lengths.truncate(2);
        }
        lengths
    }

    fn space_needed(&mut self, source: u8, target: u8) -> usize {
        if let Some(maps) = self.maps(source, target) {
            return maps.len();
        }
        let mut space = vec![0; limit::MOST_MAPS];
        let answer = second::list(self.sheet, source, target, &mut space);
        (answer >> 32) as usize * self.drawn(source).strands.len()
    }
}
