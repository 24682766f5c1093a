//! Puts the sheets of `data/` to the proved library and to the bench program, and compares their answers with those stored
//! beside the sheets: `samples [folder]`.

#[path = "../../compare/src/program.rs"]
mod program;
#[path = "../../compare/src/proved.rs"]
mod proved;

use std::path::PathBuf;
use std::process::ExitCode;

use program::Program;
use proved::Proved;
use sheets::stored::{samples, Sample, FOLDER};

fn main() -> ExitCode {
    let folder = PathBuf::from(std::env::args().nth(1).unwrap_or(FOLDER.to_string()));
    let samples = samples(&folder).unwrap_or_else(|fault| {
        println!("{fault}");
        Vec::new()
    });
    let bench = Program::bench();
    let faults: Vec<String> = samples
        .iter()
        .flat_map(|sample| differences(sample, &bench))
        .collect();
    for fault in &faults {
        println!("{fault}");
    }
    let asked: usize = samples.iter().map(|sample| sample.questions().len()).sum();
    let (sheets, differences) = (samples.len(), faults.len());
    println!("samples: {sheets} sheets, {asked} questions and each bench text, {differences} differences");
    match sheets > 0 && differences == 0 {
        true => ExitCode::SUCCESS,
        false => ExitCode::FAILURE,
    }
}

fn differences(sample: &Sample, bench: &Program) -> Vec<String> {
    let name = &sample.name;
    let mut differences = Vec::new();
    for (question, expected) in sample.questions() {
        let said = sample.says(&Proved, &question);
        if said != expected {
            differences.push(format!("{name}, {question:?}: {said}, not {expected}"));
        }
    }
    match bench.says(&sample.sheet) {
        Ok(text) if text == sample.text => {}
        Ok(text) => differences.push(format!("{name}: the bench writes\n{text}")),
        Err(fault) => differences.push(format!("{name}: {fault}")),
    }
    differences
}
