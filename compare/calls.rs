//! The calls of the crate `spdx` that crates/spdx_bench measures of the port, in the same loops and with the same output.
//!
//! calls FILE TIMES [LICENSEE]..

use spdx::lexer::Lexer;
use spdx::{Expression, LicenseItem, LicenseReq, Licensee, ParseMode};
use std::process::ExitCode;

// So many expressions are asked, as spdx_bench does.
const KEPT: usize = 1_000;

#[repr(C)]
struct Timespec {
    seconds: i64,
    nanoseconds: i64,
}

unsafe extern "C" {
    fn clock_gettime(clock: i32, time: *mut Timespec) -> i32;
}

// The processor time of this process, in nanoseconds: Linux's clock of that kind.
fn processor_time() -> i64 {
    let mut time = Timespec { seconds: 0, nanoseconds: 0 };
    assert_eq!(unsafe { clock_gettime(2, &mut time) }, 0);
    time.seconds * 1_000_000_000 + time.nanoseconds
}

// Makes the call on all items, so many times over, and tells what it gave and how long it took.
fn measure<T>(name: &str, items: &[T], times: u64, call: impl Fn(&T) -> u64) {
    let start = processor_time();
    let mut total = 0;
    for _ in 0..times {
        for item in items {
            total += call(item);
        }
    }
    let spent = processor_time() - start;
    println!("{name}: {total} of {}", times * items.len() as u64);
    eprintln!("{name}: {spent}");
}

// The crate's lexer repeats a fault for ever.
fn count_tokens(text: &str, mode: ParseMode) -> u64 {
    let mut count = 0;
    for item in Lexer::new_mode(text, mode) {
        count += 1;
        if item.is_err() {
            break;
        }
    }
    count
}

fn is_approved(req: &LicenseReq) -> bool {
    match &req.license {
        LicenseItem::Spdx { id, .. } => id.is_osi_approved(),
        LicenseItem::Other(_) => false,
    }
}

fn choice(expression: &Expression, accepted: &[Licensee]) -> u64 {
    expression.minimized_requirements(accepted).map_or(0, |chosen| chosen.len() as u64)
}

fn main() -> ExitCode {
    let words: Vec<String> = std::env::args().skip(1).collect();
    let [file, times, names @ ..] = words.as_slice() else {
        eprintln!("usage: calls FILE TIMES [LICENSEE]..");
        return ExitCode::from(2);
    };
    let times: u64 = times.parse().unwrap_or(1);
    let text = std::fs::read_to_string(file).expect("the file is read");
    let lines: Vec<&str> = text.lines().collect();
    let read = lines.iter().filter_map(|line| Expression::parse_mode(line, ParseMode::LAX).ok());
    let expressions: Vec<Expression> = read.take(KEPT).collect();
    let rounds = times * (lines.len() / KEPT).max(1) as u64;
    let accepted: Vec<Licensee> = names.iter().filter_map(|name| Licensee::parse(name).ok()).collect();
    let few = &accepted[..accepted.len().min(3)];
    let accepts = |line: &str, mode| Expression::parse_mode(line, mode).is_ok();
    let changes = |line: &str| matches!(Expression::canonicalize(line), Ok(Some(_)));
    let (strict, lax) = (ParseMode::STRICT, ParseMode::LAX);
    measure("strict tokens", &lines, times, |line| count_tokens(line, strict));
    measure("lax tokens", &lines, times, |line| count_tokens(line, lax));
    measure("strict trees", &lines, times, |line| u64::from(accepts(line, strict)));
    measure("lax trees", &lines, times, |line| u64::from(accepts(line, lax)));
    measure("canonical texts", &lines, times, |line| u64::from(changes(line)));
    measure("truths", &expressions, rounds, |e| u64::from(e.evaluate(is_approved)));
    measure("choices among three", &expressions, rounds, |e| choice(e, few));
    measure("choices among all", &expressions, rounds, |e| choice(e, &accepted));
    ExitCode::SUCCESS
}
