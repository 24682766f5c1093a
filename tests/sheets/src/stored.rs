//! The sheets of `data/` and the answers stored beside them. What the files look like is told in `data/README.md`.

use std::fs;
use std::path::Path;

use crate::builder::{limit, Sheet};
use crate::judge::{ask, Answer, Judge};
use crate::questions::Question;

/// The folder `data/` of this repository.
pub const FOLDER: &str = concat!(env!("CARGO_MANIFEST_DIR"), "/../../data");

/// A sheet with what it is to be answered.
pub struct Sample {
    pub name: String,
    pub sheet: Vec<u8>,
    asks: Vec<(Question, String)>,
    /// What the bench writes.
    pub text: String,
}

/// Every sheet of the folder, by name; a sheet without answers or answers without a sheet are a fault.
pub fn samples(folder: &Path) -> Result<Vec<Sample>, String> {
    let mut names = Vec::new();
    let entries = fs::read_dir(folder).map_err(|error| format!("{}: {error}", folder.display()))?;
    for entry in entries {
        let name = entry.map_err(|error| error.to_string())?.file_name();
        let name = name.to_string_lossy().into_owned();
        names.extend(
            name.strip_suffix(".sheet")
                .or(name.strip_suffix(".asks"))
                .map(String::from),
        );
    }
    names.sort();
    names.dedup();
    if names.is_empty() {
        return Err(format!("{}: no sheets", folder.display()));
    }
    names.into_iter().map(|name| sample(folder, name)).collect()
}

fn sample(folder: &Path, name: String) -> Result<Sample, String> {
    let read = |ending: &str| {
        let file = format!("{name}.{ending}");
        let text = fs::read_to_string(folder.join(&file));
        text.map_err(|error| format!("{file}: {error}"))
    };
    let sheet = bytes(&read("sheet")?).ok_or(format!(
        "{name}.sheet: not all of it is pairs of hexadecimal digits"
    ))?;
    let (mut asks, mut text) = (Vec::new(), String::new());
    for line in read("asks")?.lines() {
        let line = before_comment(line);
        match line.split_once(" => ") {
            Some((asked, expected)) => {
                let question =
                    question(asked).ok_or(format!("{name}.asks: {asked} is no question"))?;
                asks.push((question, expected.to_string()));
            }
            None if line.is_empty() => {}
            None => {
                text.push_str(line);
                text.push('\n');
            }
        }
    }
    match text.is_empty() {
        true => Err(format!("{name}.asks: no bench text")),
        false => Ok(Sample {
            name,
            sheet,
            asks,
            text,
        }),
    }
}

fn before_comment(line: &str) -> &str {
    line.split('#').next().unwrap_or("").trim_end()
}

/// The bytes that are written in hexadecimal digits.
pub(crate) fn bytes(text: &str) -> Option<Vec<u8>> {
    let mut bytes = Vec::new();
    for word in text
        .lines()
        .flat_map(|line| before_comment(line).split_whitespace())
    {
        let digits: Option<Vec<u8>> = word
            .chars()
            .map(|digit| digit.to_digit(16).map(|value| value as u8))
            .collect();
        let digits = digits.filter(|digits| digits.len().is_multiple_of(2))?;
        bytes.extend(digits.chunks(2).map(|pair| 16 * pair[0] + pair[1]));
    }
    Some(bytes)
}

/// `within T INSIDE of S..`, `derivable K S P T`, `reach K S P`, `realized K`, `map A B by M.. into N`, `list A B into N`.
fn question(asked: &str) -> Option<Question> {
    let words: Vec<&str> = asked.split_whitespace().collect();
    let all = |words: &[&str]| {
        words
            .iter()
            .map(|word| word.parse().ok())
            .collect::<Option<Vec<u8>>>()
    };
    Some(match words[..] {
        ["within", term, inside, "of", ref set @ ..] => Question::Within {
            term: term.parse().ok()?,
            inside: inside.parse().ok()?,
            set: all(set)?,
        },
        ["map", source, target, "by", ref map @ .., "into", lent] => Question::Map {
            source: source.parse().ok()?,
            target: target.parse().ok()?,
            map: all(map)?,
            lent: lent.parse().ok()?,
        },
        ["list", source, target, "into", lent] => Question::List {
            source: source.parse().ok()?,
            target: target.parse().ok()?,
            lent: lent.parse().ok()?,
        },
        [name, ref numbers @ ..] => of_numbers(name, &all(numbers)?)?,
        [] => return None,
    })
}

fn of_numbers(name: &str, numbers: &[u8]) -> Option<Question> {
    Some(match (name, numbers) {
        ("derivable", &[skeleton, strand, position, term]) => Question::Derivable {
            skeleton,
            node: (strand, position),
            term,
        },
        ("reach", &[skeleton, strand, position]) => Question::Reach {
            skeleton,
            node: (strand, position),
        },
        ("realized", &[skeleton]) => Question::Realized { skeleton },
        _ => return None,
    })
}

impl Sample {
    /// All that is asked of the sheet, with the answers.
    pub fn questions(&self) -> Vec<(Question, String)> {
        let mut questions = self.asks.clone();
        questions.extend(self.told_by_text());
        questions
    }

    /// The questions that the bench's text answers. A sheet that is refused is refused to every question, whatever else is
    /// wrong with it.
    fn told_by_text(&self) -> Vec<(Question, String)> {
        let mut told = Vec::new();
        let lines: Vec<&str> = self.text.lines().collect();
        for (at, &line) in lines.iter().enumerate() {
            let words: Vec<&str> = line.splitn(3, ' ').collect();
            match words[..] {
                ["sheet", "good", _] => told.push((Question::Sheet, line[6..].to_string())),
                ["sheet", ..] => {
                    let refusal = |question| (question, line[6..].to_string());
                    told.extend(every_question().map(refusal));
                }
                ["skeleton", skeleton, state] => {
                    let skeleton = skeleton.parse().expect("a skeleton's number");
                    told.push((Question::Realized { skeleton }, state.to_string()));
                }
                ["maps", _, rest] => told.push(listed(rest, &lines[at + 1..])),
                _ => {}
            }
        }
        told
    }

    /// The judge's answer, in the words of the stored ones.
    pub fn says(&self, judge: &impl Judge, question: &Question) -> String {
        let answer = ask(judge, &self.sheet, question);
        let written = match (question, answer.tag()) {
            (Question::Map { .. }, 1) => Sheet::read(&self.sheet).terms.len(),
            (Question::List { source, .. }, 1) => answer.z() as usize * self.strands(*source),
            _ => 0,
        };
        if written > question.lent() || !answer.writes_only(written) {
            return format!("{:#x} and more written than the answer", answer.word);
        }
        let written = &answer.lent()[..written];
        match (question, answer.tag()) {
            (_, 0) => refusal(&answer),
            (Question::Sheet, 1) => format!("good terms {} skeletons {}", answer.z(), answer.x()),
            (Question::Reach { .. }, 1) => answer.z().to_string(),
            (Question::Realized { .. }, 1) => "realized".to_string(),
            (Question::Realized { .. }, 2) => format!("open at {} {}", answer.x(), answer.y()),
            (Question::Map { .. }, 1) => format!("yes {}", numbers(written)),
            (Question::Map { .. }, 2) => format!("no, rule {}", answer.x()),
            (Question::List { source, .. }, 1) => {
                let maps: Vec<String> =
                    written.chunks(self.strands(*source)).map(numbers).collect();
                list(&answer.z().to_string(), &maps)
            }
            (_, 1) => "yes".to_string(),
            (_, 2) => "no".to_string(),
            _ => format!("{:#x}", answer.word),
        }
    }

    fn strands(&self, skeleton: u8) -> usize {
        Sheet::read(&self.sheet).skeletons[usize::from(skeleton)]
            .strands
            .len()
    }
}

/// The list question that `maps 0 to 1` and the lines after it answer. It is lent no more than the maps take, and where they are
/// refused what the bench lends.
fn listed(line: &str, maps: &[&str]) -> (Question, String) {
    let ask = |lent| Question::List {
        source: 0,
        target: 1,
        lent,
    };
    match line.strip_prefix("to 1: ") {
        Some(count) => {
            let lent = maps.iter().map(|map| map.split(' ').count()).sum();
            (ask(lent), list(count, maps))
        }
        None => {
            let refused = "refused 16 place 0 skeleton 0";
            (ask(limit::LIST_SPACE), refused.to_string())
        }
    }
}

fn list<S: AsRef<str>>(count: &str, maps: &[S]) -> String {
    let maps: Vec<&str> = maps.iter().map(AsRef::as_ref).collect();
    format!("{count}: {}", maps.join(", "))
        .trim_end()
        .to_string()
}

fn every_question() -> impl Iterator<Item = Question> {
    let (skeleton, node, term) = (255, (255, 255), 255);
    let (source, target, lent) = (255, 255, 3);
    [
        Question::Sheet,
        Question::Within {
            term,
            inside: 255,
            set: vec![255],
        },
        Question::Derivable {
            skeleton,
            node,
            term,
        },
        Question::Reach { skeleton, node },
        Question::Realized { skeleton },
        Question::Map {
            source,
            target,
            map: vec![255],
            lent,
        },
        Question::List {
            source,
            target,
            lent,
        },
    ]
    .into_iter()
}

fn refusal(answer: &Answer) -> String {
    format!(
        "refused {} place {} skeleton {}",
        answer.x(),
        answer.z(),
        answer.y()
    )
}

fn numbers(bytes: &[u8]) -> String {
    let words: Vec<String> = bytes.iter().map(u8::to_string).collect();
    words.join(" ")
}
