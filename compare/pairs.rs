//! Each licensee of the list that satisfies a requirement of the list under another name: a line
//! `LICENSEE<tab>REQUIREMENT` for each, the requirements with and without a `+`.
//!
//! Read laxly, since a `+` on a GNU name is one of the requirements. Compare two builds' lines to see
//! where two `licensee.rs` differ.

use spdx::identifiers::LICENSES;
use spdx::{Expression, LicenseReq, Licensee, ParseMode};
use std::io::{self, BufWriter, Write};

fn requirement(text: &str) -> Option<LicenseReq> {
    let expression = Expression::parse_mode(text, ParseMode::LAX).ok()?;
    expression.requirements().next().map(|found| found.req.clone())
}

fn main() -> io::Result<()> {
    let mut output = BufWriter::new(io::stdout().lock());
    let licensees: Vec<(&str, Licensee)> =
        LICENSES.iter().filter_map(|row| Some((row.name, Licensee::parse(row.name).ok()?))).collect();
    for row in LICENSES.iter().filter(|row| !row.name.ends_with('+')) {
        for text in [row.name.to_string(), format!("{}+", row.name)] {
            let Some(wanted) = requirement(&text) else { continue };
            for (name, licensee) in &licensees {
                if *name != row.name && licensee.satisfies(&wanted) {
                    writeln!(output, "{name}\t{text}")?;
                }
            }
        }
    }
    output.flush()
}
