//! Reads a sheet from standard input and writes the bench program's text.
//! `--slip N` plants slip N.

use std::io::{self, Read, Write};
use std::process::ExitCode;

fn slip_asked() -> Result<Option<u8>, String> {
    let arguments: Vec<String> = std::env::args().skip(1).collect();
    match arguments.as_slice() {
        [] => Ok(None),
        [option, number] if option == "--slip" => match number.parse() {
            Ok(slip) if second::SLIPS.iter().any(|&(known, _)| known == slip) => Ok(Some(slip)),
            _ => Err(format!("no slip {number}")),
        },
        _ => Err("usage: second [--slip N] < sheet".to_string()),
    }
}

fn judge(slip: Option<u8>) -> io::Result<()> {
    let mut input = Vec::new();
    let deciding = second::limits::BENCH_INPUT as u64;
    io::stdin().take(deciding).read_to_end(&mut input)?;
    let text = match slip {
        None => second::bench(&input),
        Some(slip) => second::slipped::bench(slip, &input),
    };
    io::stdout().write_all(&text)
}

fn main() -> ExitCode {
    let outcome = slip_asked().and_then(|slip| judge(slip).map_err(|error| error.to_string()));
    match outcome {
        Ok(()) => ExitCode::SUCCESS,
        Err(message) => {
            eprintln!("second: {message}");
            ExitCode::FAILURE
        }
    }
}
