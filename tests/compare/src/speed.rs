//! Times the proved judge and the second program in one run, on the same questions: `speed`.

mod proved;

use std::hint::black_box;
use std::time::Instant;

use sheets::builder::Sheet;
use sheets::{chain, example, generate, longest, questions, shared, six_by_six, Question};

/// The goal: the judge takes at most this many times as long as the second program.
const MOST: f64 = 2.0;

/// How many batches of each are timed, by turns, and about how long one takes.
const BATCHES: usize = 60;
const NANOSECONDS: f64 = 1_000_000.0;

/// The sizes of the sheets that grow.
const SIZES: [usize; 4] = [25, 50, 100, 190];

/// Space for the most maps: 6 to the 6th, 6 bytes each.
const LISTED: usize = 279_936;

/// A question with its sheet and the bytes that it is lent.
struct Asked {
    sheet: Vec<u8>,
    question: Question,
    lent: Vec<u8>,
}

type Ask = fn(&mut Asked) -> u64;

fn main() {
    println!(
        "{:40} {:>10} {:>10} {:>6}",
        "nanoseconds a question", "judge", "second", "ratio"
    );
    let mut kept = true;
    let mut row = |name: &str, asked: Vec<Asked>| kept &= row(name, asked);
    for question in about_the_example() {
        let name = format!("{}: the 105-byte sheet", question.name());
        row(&name, vec![asked(example(), question)]);
    }
    row(
        "sheet: the longest, 2,581 bytes",
        vec![asked(longest(), Question::Sheet)],
    );
    for question in about_the_example() {
        let name = question.name();
        row(&format!("{name}: 1,000 generated sheets"), generated(name));
    }
    let growing: [(&str, fn(usize) -> Vec<u8>); 2] =
        [("shared parts", shared), ("a chain of keys", chain)];
    for (what, make) in growing {
        for terms in SIZES {
            let question = Question::Realized { skeleton: 0 };
            let name = format!("realized: {what}, {terms} terms");
            row(&name, vec![asked(make(terms), question)]);
        }
        for terms in SIZES {
            let question = last_reach(&make(terms));
            let name = format!("reach: {what}, {terms} terms");
            row(&name, vec![asked(make(terms), question)]);
        }
    }
    println!(
        "every ratio is at most {MOST}: {}",
        if kept { "yes" } else { "no" }
    );
    lists();
}

/// The list over fifty sheets of 6 strands against 6: the time of the worst, and of all.
fn lists() {
    let six = |number| Asked {
        sheet: six_by_six(number),
        question: Question::List {
            source: 0,
            target: 1,
            lent: LISTED,
        },
        lent: vec![0; LISTED],
    };
    let mut all: Vec<Asked> = (0..50).map(six).collect();
    let mut times = |ask: Ask| -> Vec<f64> {
        let one = |asked: &mut Asked| batch(ask, std::slice::from_mut(asked), 1) / 1e6;
        all.iter_mut().map(one).collect()
    };
    for (who, ask) in [("judge", ours as Ask), ("second", theirs as Ask)] {
        let taken = times(ask);
        let worst = taken.iter().copied().fold(0.0, f64::max);
        let sum: f64 = taken.iter().sum();
        println!(
            "list: fifty sheets, 6 strands against 6, {who}: worst {worst:.1} ms, all {sum:.1} ms"
        );
    }
}

fn asked(sheet: Vec<u8>, question: Question) -> Asked {
    let lent = vec![0; question.lent()];
    Asked {
        sheet,
        question,
        lent,
    }
}

/// A question of each kind but the list about the 105-byte sheet.
fn about_the_example() -> Vec<Question> {
    let (skeleton, node) = (1, (0, 1));
    vec![
        Question::Sheet,
        Question::Within {
            term: 0,
            inside: 7,
            set: vec![6],
        },
        Question::Derivable {
            skeleton,
            node,
            term: 8,
        },
        Question::Reach { skeleton, node },
        Question::Realized { skeleton },
        Question::Map {
            source: 0,
            target: 1,
            map: vec![0],
            lent: 9,
        },
    ]
}

/// All questions of a kind about 1,000 generated sheets.
fn generated(kind: &str) -> Vec<Asked> {
    let about = |index| {
        let sheet = generate(1, index);
        let all = questions(1, index, &sheet).into_iter();
        let these = all.filter(|question| question.name() == kind);
        these.map(move |question| asked(sheet.clone(), question))
    };
    (0..1_000).flat_map(about).collect()
}

/// The reach before the last reception of skeleton 0.
fn last_reach(sheet: &[u8]) -> Question {
    let drawn = Sheet::read(sheet);
    let receptions = drawn.skeletons[0].receptions();
    Question::Reach {
        skeleton: 0,
        node: *receptions.last().expect("a reception"),
    }
}

fn ours(asked: &mut Asked) -> u64 {
    let sheet = &asked.sheet;
    match &asked.question {
        Question::Sheet => proved::sheet(sheet),
        Question::Within { term, inside, set } => proved::within(sheet, *term, *inside, set),
        Question::Derivable {
            skeleton,
            node: (s, p),
            term,
        } => proved::derivable(sheet, *skeleton, *s, *p, *term),
        Question::Reach {
            skeleton,
            node: (s, p),
        } => proved::reach(sheet, *skeleton, *s, *p),
        Question::Realized { skeleton } => proved::realized(sheet, *skeleton),
        Question::Map {
            source,
            target,
            map,
            ..
        } => proved::map(sheet, *source, *target, map, &mut asked.lent),
        Question::List { source, target, .. } => {
            proved::list(sheet, *source, *target, &mut asked.lent)
        }
    }
}

fn theirs(asked: &mut Asked) -> u64 {
    let sheet = &asked.sheet;
    match &asked.question {
        Question::Sheet => second::sheet(sheet),
        Question::Within { term, inside, set } => second::within(sheet, *term, *inside, set),
        Question::Derivable {
            skeleton,
            node: (s, p),
            term,
        } => second::derivable(sheet, *skeleton, *s, *p, *term),
        Question::Reach {
            skeleton,
            node: (s, p),
        } => second::reach(sheet, *skeleton, *s, *p),
        Question::Realized { skeleton } => second::realized(sheet, *skeleton),
        Question::Map {
            source,
            target,
            map,
            ..
        } => second::map(sheet, *source, *target, map, &mut asked.lent),
        Question::List { source, target, .. } => {
            second::list(sheet, *source, *target, &mut asked.lent)
        }
    }
}

/// The best batch of each, and whether the goal is kept.
fn row(name: &str, mut asked: Vec<Asked>) -> bool {
    let once = batch(ours, &mut asked, 1) * asked.len() as f64;
    let times = (NANOSECONDS / once).ceil() as u32;
    let (mut best, mut other) = (f64::MAX, f64::MAX);
    for _ in 0..BATCHES {
        best = best.min(batch(ours, &mut asked, times));
        other = other.min(batch(theirs, &mut asked, times));
    }
    println!("{name:40} {best:10.0} {other:10.0} {:6.2}", best / other);
    best <= MOST * other
}

/// Nanoseconds a question.
fn batch(ask: Ask, asked: &mut [Asked], times: u32) -> f64 {
    let start = Instant::now();
    for _ in 0..times {
        for one in asked.iter_mut() {
            black_box(ask(black_box(one)));
        }
    }
    start.elapsed().as_nanos() as f64 / (f64::from(times) * asked.len() as f64)
}
