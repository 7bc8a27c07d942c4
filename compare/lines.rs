//! The line program over the crate `spdx`: the words, answers and statuses of `spdx_lines`, as far as the crate can say
//! them. The list of licences is built in, so no word names a catalogue.
//!
//! lines strict|lax [LICENSEE].. < LINES

use spdx::error::ParseError;
use spdx::expression::MinimizeError;
use spdx::{Expression, Licensee, ParseMode};
use std::io::{self, BufRead, BufReader, BufWriter, Write};
use std::process::ExitCode;

const PIECE: usize = 65_536;

fn main() -> ExitCode {
    let words: Vec<String> = std::env::args().skip(1).collect();
    let mode = match words.first().map(String::as_str) {
        Some("strict") => ParseMode::STRICT,
        Some("lax") => ParseMode::LAX,
        _ => {
            eprintln!("usage: lines strict|lax [LICENSEE]..");
            return ExitCode::from(2);
        }
    };
    let mut accepted = Vec::new();
    for (place, word) in words.iter().enumerate().skip(1) {
        match Licensee::parse(word) {
            Ok(licensee) => accepted.push(licensee),
            Err(ParseError { span, reason, .. }) => {
                eprintln!("licensee {place}: {}..{} {reason}", span.start, span.end);
                return ExitCode::from(2);
            }
        }
    }
    match answer_all(mode, &accepted) {
        Ok(0) => ExitCode::SUCCESS,
        Ok(_) => ExitCode::from(1),
        Err(_) => ExitCode::from(3),
    }
}

// Answers the lines of standard input, and counts the refused ones.
fn answer_all(mode: ParseMode, accepted: &[Licensee]) -> io::Result<u64> {
    let mut input = BufReader::with_capacity(PIECE, io::stdin().lock());
    let mut output = BufWriter::with_capacity(PIECE, io::stdout().lock());
    let mut line = Vec::new();
    let mut refused = 0;
    while input.read_until(b'\n', &mut line)? != 0 {
        if line.last() == Some(&b'\n') {
            line.pop();
        }
        if !answer(mode, accepted, &line, &mut output)? {
            refused += 1;
        }
        line.clear();
    }
    output.flush()?;
    Ok(refused)
}

// Answers a line: whether it is accepted.
fn answer(mode: ParseMode, accepted: &[Licensee], line: &[u8], output: &mut impl Write) -> io::Result<bool> {
    let Ok(line) = std::str::from_utf8(line) else {
        output.write_all(b"bad-utf8\n")?;
        return Ok(false);
    };
    let expression = match Expression::parse_mode(line, mode) {
        Ok(expression) => expression,
        Err(ParseError { span, reason, .. }) => {
            writeln!(output, "refused {}..{} {reason}", span.start, span.end)?;
            return Ok(false);
        }
    };
    output.write_all(b"accepted\t")?;
    match Expression::canonicalize(line) {
        Ok(Some(canonical)) => output.write_all(canonical.as_bytes())?,
        Ok(None) => output.write_all(line.as_bytes())?,
        Err(_) => output.write_all(b"no canonical text")?,
    }
    output.write_all(b"\t")?;
    match expression.minimized_requirements(accepted) {
        Ok(chosen) => {
            for (place, requirement) in chosen.iter().enumerate() {
                let comma = if place == 0 { "" } else { ", " };
                write!(output, "{comma}{requirement}")?;
            }
        }
        Err(MinimizeError::RequirementsUnmet) => output.write_all(b"unmet")?,
        Err(MinimizeError::TooManyRequirements(count)) => write!(output, "too-many {count}")?,
    }
    output.write_all(b"\n")?;
    Ok(true)
}
