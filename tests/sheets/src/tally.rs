//! How often each answer to each question occurs, and which of those that can occur never do.

use std::collections::BTreeMap;

use crate::judge::Answer;
use crate::questions::Question;

/// The bench's text counts as an eighth question.
const ASKED: usize = 8;
const BENCH: usize = 7;

/// What must occur, and how often, besides every refusal that a question can give.
const ANSWERS: [(&str, u64); 32] = [
    ("sheet: good, one skeleton", 1),
    ("sheet: good, two skeletons", 100),
    ("within: yes", 1),
    ("within: no", 1),
    ("derivable: yes", 1),
    ("derivable: no", 1),
    ("reach: counted", 1),
    ("reach: three passes or more", 100),
    ("reach: bodies opened with a built key", 100),
    ("realized: yes", 1),
    ("realized: open", 1),
    ("map: yes", 1),
    ("map: no, rule 1", 1),
    ("map: no, rule 2", 1),
    ("map: no, rule 3", 1),
    ("map: no, rule 4", 1),
    ("map: no, rule 5", 1),
    ("map: no, rule 6", 1),
    ("list: no map", 1),
    ("list: one map", 1),
    ("list: two to ten maps", 1),
    ("list: more than ten maps", 100),
    ("list: more than a thousand maps", 1),
    ("list: exactly 8,192 maps", 1),
    ("bench: one skeleton", 1),
    ("bench: no map", 1),
    ("bench: maps listed", 1),
    ("bench: a skeleton realized", 1),
    ("bench: a skeleton open", 1),
    ("bench: input in small pieces", 100),
    ("bench: input of more than 4,096 bytes", 100),
    ("pairs of skeletons asked for maps and their list", 20_000),
];

pub struct Tally {
    pub sheets: u64,
    /// How many questions were asked in all.
    pub asked: u64,
    answers: BTreeMap<&'static str, u64>,
    refusals: [[u64; 17]; ASKED],
}

impl Default for Tally {
    fn default() -> Self {
        Tally {
            sheets: 0,
            asked: 0,
            answers: ANSWERS.iter().map(|&(row, _)| (row, 0)).collect(),
            refusals: [[0; 17]; ASKED],
        }
    }
}

impl Tally {
    pub fn add(&mut self, row: &'static str, times: u64) {
        let count = self.answers.get_mut(row);
        *count.unwrap_or_else(|| panic!("no row {row}")) += times;
    }

    pub fn join(&mut self, other: &Tally) {
        self.sheets += other.sheets;
        self.asked += other.asked;
        for (row, &times) in &other.answers {
            self.add(row, times);
        }
        let counts = self.refusals.iter_mut().flatten();
        for (count, times) in counts.zip(other.refusals.iter().flatten()) {
            *count += times;
        }
    }

    pub fn count(&mut self, sheet: &[u8], question: &Question, answer: &Answer) {
        self.asked += 1;
        if answer.tag() == 0 {
            self.refusals[question.number()][usize::from(answer.x())] += 1;
            return;
        }
        match (question, answer.tag()) {
            (Question::Sheet, _) if answer.x() == 2 => self.add("sheet: good, two skeletons", 1),
            (Question::Sheet, _) => self.add("sheet: good, one skeleton", 1),
            (Question::Within { .. }, 1) => self.add("within: yes", 1),
            (Question::Within { .. }, _) => self.add("within: no", 1),
            (Question::Derivable { .. }, 1) => self.add("derivable: yes", 1),
            (Question::Derivable { .. }, _) => self.add("derivable: no", 1),
            (Question::Reach { skeleton, node }, _) => self.count_reach(sheet, *skeleton, *node),
            (Question::Realized { .. }, 1) => self.add("realized: yes", 1),
            (Question::Realized { .. }, _) => self.add("realized: open", 1),
            (Question::Map { .. }, 1) => self.add("map: yes", 1),
            (Question::Map { .. }, _) => self.add(broken(answer.x()), 1),
            (Question::List { .. }, _) => self.count_maps(answer.z()),
        }
    }

    fn count_reach(&mut self, sheet: &[u8], skeleton: u8, node: (u8, u8)) {
        self.add("reach: counted", 1);
        let passes = second::passes(sheet, skeleton, node.0, node.1);
        self.add("reach: three passes or more", u64::from(passes >= 3));
        let built = second::built_keys(sheet, skeleton, node.0, node.1);
        self.add("reach: bodies opened with a built key", built.into());
    }

    fn count_maps(&mut self, count: u32) {
        let class = match count {
            0 => "list: no map",
            1 => "list: one map",
            2..=10 => "list: two to ten maps",
            11..=1000 => "list: more than ten maps",
            _ => "list: more than a thousand maps",
        };
        self.add(class, 1);
        self.add("list: exactly 8,192 maps", u64::from(count == 8192));
    }

    pub fn count_bench(&mut self, text: &str) {
        for line in text.lines() {
            match line.split(' ').collect::<Vec<&str>>()[..] {
                ["sheet", "refused", number, ..] => self.count_bench_refusal(number),
                ["sheet", "good", .., "1"] => self.add("bench: one skeleton", 1),
                ["skeleton", _, "realized"] => self.add("bench: a skeleton realized", 1),
                ["skeleton", _, "open", ..] => self.add("bench: a skeleton open", 1),
                ["maps", .., "refused", number] => self.count_bench_refusal(number),
                ["maps", .., "0"] => self.add("bench: no map", 1),
                ["maps", ..] => self.add("bench: maps listed", 1),
                _ => {}
            }
        }
    }

    fn count_bench_refusal(&mut self, number: &str) {
        let number: usize = number.parse().expect("a refusal has a number");
        self.refusals[BENCH][number] += 1;
    }

    pub fn print(&self) {
        print!("{:10}", "refusal");
        for name in Question::NAMES.iter().chain(&["bench"]) {
            print!("{name:>10}");
        }
        println!();
        for number in 1..=16 {
            print!("{number:7}   ");
            for asked in 0..ASKED {
                match can_give(asked, number) {
                    true => print!("{:10}", self.refusals[asked][number]),
                    false => print!("{:>10}", "-"),
                }
            }
            println!();
        }
        for (row, _) in &ANSWERS {
            println!("{:10}   {row}", self.answers[row]);
        }
    }

    /// What occurs too seldom.
    pub fn missing(&self) -> Vec<String> {
        let seldom = ANSWERS
            .iter()
            .filter(|(row, least)| self.answers[row] < *least);
        let mut missing: Vec<String> = seldom.map(|(row, _)| row.to_string()).collect();
        for asked in 0..ASKED {
            let name = Question::NAMES.get(asked).unwrap_or(&"bench");
            let never =
                |&number: &usize| can_give(asked, number) && self.refusals[asked][number] == 0;
            missing.extend(
                (1..=16)
                    .filter(never)
                    .map(|number| format!("{name}: refused {number}")),
            );
        }
        missing
    }
}

fn broken(rule: u8) -> &'static str {
    [
        "map: no, rule 1",
        "map: no, rule 2",
        "map: no, rule 3",
        "map: no, rule 4",
        "map: no, rule 5",
        "map: no, rule 6",
    ][usize::from(rule) - 1]
}

/// Whether a question can be refused with this number: 15 needs something asked for, and 16
/// something lent.
fn can_give(asked: usize, refusal: usize) -> bool {
    let lends = matches!(Question::NAMES.get(asked), Some(&"map" | &"list")) || asked == BENCH;
    match refusal {
        15 => asked != 0 && asked != BENCH,
        16 => lends,
        _ => true,
    }
}
