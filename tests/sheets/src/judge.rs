//! Asking a judge: any program with the seven questions.

use std::sync::OnceLock;

use crate::builder::limit;
use crate::questions::Question;

/// The seven questions, each answered by one word.
pub trait Judge {
    fn sheet(&self, sheet: &[u8]) -> u64;
    fn within(&self, sheet: &[u8], term: u8, inside: u8, set: &[u8]) -> u64;
    fn derivable(&self, sheet: &[u8], skeleton: u8, strand: u8, position: u8, term: u8) -> u64;
    fn reach(&self, sheet: &[u8], skeleton: u8, strand: u8, position: u8) -> u64;
    fn realized(&self, sheet: &[u8], skeleton: u8) -> u64;
    fn map(&self, sheet: &[u8], source: u8, target: u8, map: &[u8], images: &mut [u8]) -> u64;
    fn list(&self, sheet: &[u8], source: u8, target: u8, space: &mut [u8]) -> u64;
}

/// How many bytes are kept in view before the lent memory, and as many behind it.
const CANARY: usize = 64;

/// The answer word, and the lent memory afterwards with the canaries before and behind it.
#[derive(Clone, Debug, PartialEq, Eq)]
pub struct Answer {
    pub word: u64,
    memory: Vec<u8>,
}

impl Answer {
    /// The lent memory.
    pub fn lent(&self) -> &[u8] {
        &self.memory[CANARY..self.memory.len() - CANARY]
    }

    /// Nothing was written but the first `written` bytes of the lent memory.
    pub fn writes_only(&self, written: usize) -> bool {
        let before = fresh(self.memory.len());
        let end = CANARY + written;
        self.memory[..CANARY] == before[..CANARY] && self.memory[end..] == before[end..]
    }

    pub fn tag(&self) -> u8 {
        self.word as u8
    }

    pub fn x(&self) -> u8 {
        (self.word >> 8) as u8
    }

    pub fn y(&self) -> u16 {
        (self.word >> 16) as u16
    }

    pub fn z(&self) -> u32 {
        (self.word >> 32) as u32
    }
}

/// Memory as it is before a question: bytes that no answer would write by chance.
fn fresh(length: usize) -> &'static [u8] {
    static BYTES: OnceLock<Vec<u8>> = OnceLock::new();
    let most = limit::MOST_MAPS + 10 * CANARY;
    let bytes = BYTES.get_or_init(|| (0..most).map(|at| (at % 101) as u8 + 150).collect());
    &bytes[..length]
}

pub fn ask(judge: &impl Judge, sheet: &[u8], question: &Question) -> Answer {
    let mut memory = fresh(question.lent() + 2 * CANARY).to_vec();
    let lent = &mut memory[CANARY..][..question.lent()];
    let word = match question {
        Question::Sheet => judge.sheet(sheet),
        Question::Within { term, inside, set } => judge.within(sheet, *term, *inside, set),
        Question::Derivable {
            skeleton,
            node,
            term,
        } => judge.derivable(sheet, *skeleton, node.0, node.1, *term),
        Question::Reach { skeleton, node } => judge.reach(sheet, *skeleton, node.0, node.1),
        Question::Realized { skeleton } => judge.realized(sheet, *skeleton),
        Question::Map {
            source,
            target,
            map,
            ..
        } => judge.map(sheet, *source, *target, map, lent),
        Question::List { source, target, .. } => judge.list(sheet, *source, *target, lent),
    };
    Answer { word, memory }
}

/// Makes a judge of a module that has the seven questions as functions. They may take something of
/// the judge's first.
#[macro_export]
macro_rules! judge_by {
    ($judge:ty, $($module:ident)::+ $(, $own:ident => $first:expr)?) => {
        impl $crate::judge::Judge for $judge {
            fn sheet(&self, sheet: &[u8]) -> u64 {
                $(let $own = self;)?
                $($module)::+::sheet($($first,)? sheet)
            }

            fn within(&self, sheet: &[u8], term: u8, inside: u8, set: &[u8]) -> u64 {
                $(let $own = self;)?
                $($module)::+::within($($first,)? sheet, term, inside, set)
            }

            fn derivable(&self, sheet: &[u8], skeleton: u8, strand: u8, position: u8, term: u8) -> u64 {
                $(let $own = self;)?
                $($module)::+::derivable($($first,)? sheet, skeleton, strand, position, term)
            }

            fn reach(&self, sheet: &[u8], skeleton: u8, strand: u8, position: u8) -> u64 {
                $(let $own = self;)?
                $($module)::+::reach($($first,)? sheet, skeleton, strand, position)
            }

            fn realized(&self, sheet: &[u8], skeleton: u8) -> u64 {
                $(let $own = self;)?
                $($module)::+::realized($($first,)? sheet, skeleton)
            }

            fn map(&self, sheet: &[u8], source: u8, target: u8, map: &[u8], images: &mut [u8]) -> u64 {
                $(let $own = self;)?
                $($module)::+::map($($first,)? sheet, source, target, map, images)
            }

            fn list(&self, sheet: &[u8], source: u8, target: u8, space: &mut [u8]) -> u64 {
                $(let $own = self;)?
                $($module)::+::list($($first,)? sheet, source, target, space)
            }
        }
    };
}

/// The second program as it is.
pub struct Straight;

judge_by!(Straight, second);

/// The second program with the slip of this number planted.
pub struct Slipped(pub u8);

judge_by!(Slipped, second::slipped, judge => judge.0);
