//! Puts generated sheets and real protocols, each with its questions, to the proved judge and to the second program:
//!
//! - `compare [seed] [count] [first]`: sheets of one seed, from number `first` on, and the real protocols;
//! - `compare --minutes N`: fresh sheets of seeds taken from the clock, until the time is over;
//! - `compare --valgrind [count]`: the bench program under valgrind over damaged sheets, the other questions left out.
//!
//! Fails at the first difference; a run of 50,000 sheets or more also if an answer that can be given never is.

mod asking;
mod program;
mod proved;

use std::process::ExitCode;
use std::time::{Duration, Instant, SystemTime, UNIX_EPOCH};

use asking::{compare_all, Case, Plan};
use program::Program;
use sheets::tally::Tally;
use sheets::{generate, is_damaged, protocols};

/// From this many sheets on every answer is expected.
const ENOUGH: u64 = 50_000;
/// The walks over fixed sheets are over here, and each sheet is a new one.
const FRESH: u64 = 50_000;
/// How many sheets of one seed are taken in a run by the clock.
const OF_A_SEED: u64 = 20_000;

fn main() -> ExitCode {
    let words: Vec<String> = std::env::args().skip(1).collect();
    let number = |at: usize, or: u64| match words.get(at) {
        Some(word) => word.parse().map_err(|_| format!("{word} is no number")),
        None => Ok(or),
    };
    let outcome = match words.first().map(String::as_str) {
        Some("--minutes") => number(1, 10).and_then(for_minutes),
        Some("--valgrind") => number(1, 1_000).and_then(under_valgrind),
        _ => number(0, 1).and_then(|seed| of_a_seed(seed, number(1, ENOUGH)?, number(2, 0)?)),
    };
    match outcome {
        Ok(()) => ExitCode::SUCCESS,
        Err(difference) => {
            println!("{difference}");
            ExitCode::FAILURE
        }
    }
}

fn of_a_seed(seed: u64, count: u64, first: u64) -> Result<(), String> {
    let real = protocols::all();
    let plan = Plan {
        case: &|number| match number.checked_sub(count) {
            None => Some(generated(seed, first + number)),
            Some(index) => real.get(index as usize).map(|protocol| Case {
                name: protocol.name.to_string(),
                seed,
                index,
                sheet: protocol.sheet.clone(),
            }),
        },
        ..Plan::new(Program::bench())
    };
    let tally = compare_all(&plan)?;
    let (real, asked) = (real.len(), tally.asked);
    println!("{count} sheets of seed {seed} and {real} real protocols:");
    println!("no difference in {asked} questions and each bench text");
    tally.print();
    match count >= ENOUGH {
        true => expect_all(&tally),
        false => Ok(()),
    }
}

fn expect_all(tally: &Tally) -> Result<(), String> {
    let missing = tally.missing();
    match missing.is_empty() {
        true => Ok(()),
        false => Err(format!("too seldom or never: {}", missing.join("; "))),
    }
}

/// The program is started for one sheet in eleven only, so that more sheets are tried; the families of sheets take turns by
/// twenties, so that it gets sheets of each.
fn for_minutes(minutes: u64) -> Result<(), String> {
    let clock = SystemTime::now().duration_since(UNIX_EPOCH);
    let seed = clock.map_err(|error| error.to_string())?.as_secs();
    let end = Instant::now() + Duration::from_secs(60 * minutes);
    let of = |number: u64| (seed + number / OF_A_SEED, FRESH + number % OF_A_SEED);
    let plan = Plan {
        case: &|number| {
            let (seed, index) = of(number);
            (Instant::now() < end).then(|| generated(seed, index))
        },
        bench_every: 11,
        ..Plan::new(Program::bench())
    };
    let tally = compare_all(&plan)?;
    let (last, _) = of(tally.sheets - 1);
    println!(
        "{} sheets of seeds {seed} to {last}, from number {FRESH} on, {} questions: no difference",
        tally.sheets, tally.asked
    );
    tally.print();
    Ok(())
}

fn under_valgrind(count: u64) -> Result<(), String> {
    let damaged: Vec<u64> = (FRESH..)
        .filter(|&index| is_damaged(index))
        .take(count as usize)
        .collect();
    let plan = Plan {
        case: &|number| {
            damaged
                .get(number as usize)
                .map(|&index| generated(1, index))
        },
        questions: false,
        ..Plan::new(Program::bench().under_valgrind())
    };
    compare_all(&plan)?;
    println!(
        "the bench program under valgrind: {count} damaged sheets, no error and no difference"
    );
    Ok(())
}

fn generated(seed: u64, index: u64) -> Case {
    Case {
        name: format!("sheet {index} of seed {seed}"),
        seed,
        index,
        sheet: generate(seed, index),
    }
}
