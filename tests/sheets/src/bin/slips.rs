//! Finds for each planted slip the first generated sheet that shows it: `slips [seed] [count]`.
//! Fails if a slip never shows.

use std::process::ExitCode;

use sheets::judge::{ask, Answer, Slipped, Straight};
use sheets::{generate, questions, Question};

fn main() -> ExitCode {
    let mut arguments = std::env::args().skip(1).map(|word| word.parse::<u64>());
    let mut number = |or: u64| arguments.next().and_then(Result::ok).unwrap_or(or);
    let (seed, count) = (number(1), number(20_000));
    let mut hidden: Vec<(u8, &str)> = second::SLIPS.to_vec();
    for index in 0..count {
        if hidden.is_empty() {
            break;
        }
        let case = Case::new(seed, index);
        hidden.retain(|&(slip, what)| match case.shows(slip) {
            Some(where_shown) => {
                println!("slip {slip:2} shows on sheet {index:5}, {where_shown}: {what}");
                false
            }
            None => true,
        });
    }
    for (slip, what) in &hidden {
        println!("slip {slip:2} never shows within {count} sheets: {what}");
    }
    if hidden.is_empty() {
        println!("all {} slips show", second::SLIPS.len());
        ExitCode::SUCCESS
    } else {
        ExitCode::FAILURE
    }
}

/// A sheet with its questions and the straight answers to them.
struct Case {
    sheet: Vec<u8>,
    text: Vec<u8>,
    answers: Vec<(Question, Answer)>,
}

impl Case {
    fn new(seed: u64, index: u64) -> Self {
        let sheet = generate(seed, index);
        let text = second::bench(&sheet);
        let questions = questions(seed, index, &sheet).into_iter();
        let answered = |question| {
            let answer = ask(&Straight, &sheet, &question);
            (question, answer)
        };
        let answers = questions.map(answered).collect();
        Case {
            sheet,
            text,
            answers,
        }
    }

    /// Where the slip makes a difference, if it does.
    fn shows(&self, slip: u8) -> Option<&'static str> {
        if second::slipped::bench(slip, &self.sheet) != self.text {
            return Some("bench");
        }
        let judge = Slipped(slip);
        let differs = |(question, answer): &&(Question, Answer)| {
            ask(&judge, &self.sheet, question) != *answer
        };
        let found = self.answers.iter().find(differs);
        found.map(|(question, _)| question.name())
    }
}
