//! Asking both judges the same, over all cores.

use std::sync::atomic::{AtomicBool, AtomicU64, Ordering};
use std::thread;

use sheets::judge::{ask, Answer, Straight};
use sheets::tally::Tally;
use sheets::{pair_questions, questions, Question, Rng};

use crate::program::Program;
use crate::proved::Proved;

/// A sheet, and the two numbers from which its questions follow.
#[derive(Clone)]
pub struct Case {
    pub name: String,
    pub seed: u64,
    pub index: u64,
    pub sheet: Vec<u8>,
}

/// What is to be compared.
pub struct Plan<'a> {
    /// Case number 0, 1 and so on; none when it is over.
    pub case: &'a (dyn Fn(u64) -> Option<Case> + Sync),
    pub questions: bool,
    pub program: Program,
    /// The program is started for one case in this many.
    pub bench_every: u64,
}

impl Plan<'_> {
    pub fn new(program: Program) -> Self {
        Plan {
            case: &|_| None,
            questions: true,
            program,
            bench_every: 1,
        }
    }
}

/// Both judges' answers to all cases, counted; or the first difference.
pub fn compare_all(plan: &Plan) -> Result<Tally, String> {
    let (next, stop) = (AtomicU64::new(0), AtomicBool::new(false));
    let work = || {
        let mut tally = Tally::default();
        while !stop.load(Ordering::Relaxed) {
            let number = next.fetch_add(1, Ordering::Relaxed);
            let Some(case) = (plan.case)(number) else {
                break;
            };
            let compared = compare(plan, number, &case, &mut tally);
            if let Err(difference) = compared {
                stop.store(true, Ordering::Relaxed);
                return Err(format!("{}: {difference}", case.name));
            }
        }
        Ok(tally)
    };
    let cores = thread::available_parallelism().map_or(1, usize::from);
    let tallies: Vec<Result<Tally, String>> = thread::scope(|scope| {
        let workers: Vec<_> = (0..cores).map(|_| scope.spawn(work)).collect();
        let ended = workers.into_iter().map(|worker| worker.join());
        ended
            .map(|tally| tally.expect("no worker panics"))
            .collect()
    });
    let mut all = Tally::default();
    for tally in tallies {
        all.join(&tally?);
    }
    Ok(all)
}

fn compare(plan: &Plan, number: u64, case: &Case, tally: &mut Tally) -> Result<(), String> {
    tally.sheets += 1;
    if plan.questions {
        let pairs = pair_questions(case.seed, case.index, &case.sheet);
        let mut answers = Vec::new();
        for question in &pairs {
            answers.push(compare_answers(case, question, tally)?);
        }
        let there = answers
            .iter()
            .all(|answer| answer.tag() != 0 || answer.x() == 16);
        tally.add(
            "pairs of skeletons asked for maps and their list",
            u64::from(there),
        );
        for question in questions(case.seed, case.index, &case.sheet) {
            compare_answers(case, &question, tally)?;
        }
    }
    match number % plan.bench_every {
        0 => compare_texts(&plan.program, case, tally),
        _ => Ok(()),
    }
}

/// The words, the lent memory and the canaries around it have to be the same, and a refusal may write nothing.
fn compare_answers(case: &Case, question: &Question, tally: &mut Tally) -> Result<Answer, String> {
    let ours = ask(&Proved, &case.sheet, question);
    let theirs = ask(&Straight, &case.sheet, question);
    if ours.word != theirs.word {
        let (ours, theirs) = (ours.word, theirs.word);
        return Err(format!(
            "{question:?}: the judge says {ours:#x}, the second program {theirs:#x}"
        ));
    }
    if ours != theirs {
        return Err(format!(
            "{question:?}: the same answer {:#x}, but other bytes in memory",
            ours.word
        ));
    }
    if ours.tag() == 0 && !ours.writes_only(0) {
        return Err(format!("{question:?}: a refusal {:#x} writes", ours.word));
    }
    tally.count(&case.sheet, question, &ours);
    Ok(ours)
}

/// The program gets the sheet as it is, in small pieces, or with more behind it than decides.
fn compare_texts(program: &Program, case: &Case, tally: &mut Tally) -> Result<(), String> {
    let rng = &mut Rng::of(case.seed ^ 0x1234_5678, case.index);
    let mut input = case.sheet.clone();
    if rng.chance(1, 16) {
        let most = *rng.pick(&[4_097, 4_100, 10_000, 10_000, 200_000]);
        input.resize(rng.between(4_097, most), *rng.pick(b"\0BEN\xff"));
        tally.add("bench: input of more than 4,096 bytes", 1);
    }
    let ours = match rng.chance(1, 8) {
        true => {
            tally.add("bench: input in small pieces", 1);
            program.says_of_pieces(&pieces(rng, &input))?
        }
        false => program.says(&input)?,
    };
    let theirs = String::from_utf8(second::bench(&input)).expect("plain text");
    if ours != theirs {
        return Err(format!(
            "the bench program writes\n{ours}\nand the second program\n{theirs}"
        ));
    }
    tally.count_bench(&ours);
    Ok(())
}

fn pieces<'a>(rng: &mut Rng, input: &'a [u8]) -> Vec<&'a [u8]> {
    let most = *rng.pick(&[1, 2, 40, 1_000]);
    let mut rest = input;
    let mut pieces = Vec::new();
    while !rest.is_empty() {
        let (piece, behind) =
            rest.split_at(rng.between(1, most.max(input.len() / 100)).min(rest.len()));
        pieces.push(piece);
        rest = behind;
    }
    pieces
}
