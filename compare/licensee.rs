//! `Licensee` by the rules of docs/EXPRESSIONS.md, for sources of the crate that come without their own. It takes memory
//! for references and refusals alone.

use crate::error::{ParseError, Reason};
use crate::lexer::{Lexer, LexerToken, Token};
use crate::{AdditionItem, AdditionRef, LicenseId, LicenseItem, LicenseRef, LicenseReq};
use alloc::boxed::Box;
use alloc::string::ToString;
use core::cmp::Ordering;
use core::ops::Range;

/// A licence that is held, perhaps with an addition
#[derive(Debug, Clone, PartialEq, Eq)]
pub struct Licensee {
    held: LicenseReq,
}

impl Licensee {
    /// The licensee that a text names
    pub fn parse(text: &str) -> Result<Self, ParseError> {
        let mut tokens = Lexer::new(text);
        let Some(first) = tokens.next().transpose()? else {
            return Err(refusal(text, 0..text.len(), Reason::Empty));
        };
        let license = license_of(text, first)?;
        let mut held = LicenseReq { license, addition: None };
        let Some(joint) = tokens.next().transpose()? else {
            return Ok(Licensee { held });
        };
        if joint.token != Token::With {
            return Err(refusal(text, joint.span, Reason::Unexpected(&["WITH"])));
        }
        held.addition = Some(addition_of(text, tokens.next().transpose()?)?);
        match tokens.next().transpose()? {
            None => Ok(Licensee { held }),
            Some(more) => Err(refusal(text, more.span, Reason::Unexpected(&[]))),
        }
    }

    /// Whether the licensee meets the requirement
    pub fn satisfies(&self, req: &LicenseReq) -> bool {
        self.held.addition == req.addition && covers(&self.held.license, &req.license)
    }

    /// The requirement that was read
    pub fn req(&self) -> &LicenseReq {
        &self.held
    }

    /// The requirement that was read, without a copy
    pub fn into_req(self) -> LicenseReq {
        self.held
    }
}

fn refusal(text: &str, span: Range<usize>, reason: Reason) -> ParseError {
    ParseError { original: text.to_string(), span, reason }
}

fn license_of(text: &str, found: LexerToken<'_>) -> Result<LicenseItem, ParseError> {
    match found.token {
        Token::Spdx(id) if !id.is_deprecated() => Ok(LicenseItem::Spdx { id, or_later: false }),
        Token::Spdx(_) => Err(refusal(text, found.span, Reason::DeprecatedLicenseId)),
        Token::LicenseRef { doc_ref, lic_ref } => Ok(LicenseItem::Other(Box::new(LicenseRef {
            doc_ref: doc_ref.map(|document| document.to_string()),
            lic_ref: lic_ref.to_string(),
        }))),
        _ => Err(refusal(text, found.span, Reason::Unexpected(&["<license>"]))),
    }
}

fn addition_of(text: &str, found: Option<LexerToken<'_>>) -> Result<AdditionItem, ParseError> {
    let expected = Reason::Unexpected(&["<addition>"]);
    match found {
        None => Err(refusal(text, text.len()..text.len(), expected)),
        Some(LexerToken { token: Token::Exception(id), .. }) => Ok(AdditionItem::Spdx(id)),
        Some(LexerToken { token: Token::AdditionRef { doc_ref, add_ref }, .. }) => {
            Ok(AdditionItem::Other(Box::new(AdditionRef {
                doc_ref: doc_ref.map(|document| document.to_string()),
                add_ref: add_ref.to_string(),
            })))
        }
        Some(other) => Err(refusal(text, other.span, expected)),
    }
}

fn covers(held: &LicenseItem, required: &LicenseItem) -> bool {
    match (held, required) {
        (LicenseItem::Other(held), LicenseItem::Other(required)) => held == required,
        (LicenseItem::Spdx { id: held, .. }, LicenseItem::Spdx { id, or_later }) => {
            held == id || (allows_later(*id, *or_later) && is_as_late(*held, *id))
        }
        _ => false,
    }
}

fn allows_later(id: LicenseId, or_later: bool) -> bool {
    or_later || (id.is_gnu() && id.name.ends_with("-or-later"))
}

// The name without a GNU licence's one ending.
fn versioned(id: &LicenseId) -> &str {
    let name = id.name;
    if !id.is_gnu() {
        return name;
    }
    name.strip_suffix("-only").or_else(|| name.strip_suffix("-or-later")).unwrap_or(name)
}

// Which of the parts between hyphens is the version.
fn version_place(name: &str) -> Option<usize> {
    name.split('-').position(|part| part.bytes().all(|byte| byte == b'.' || byte.is_ascii_digit()))
}

fn is_as_late(held: LicenseId, required: LicenseId) -> bool {
    let (held, required) = (versioned(&held), versioned(&required));
    let (Some(one), Some(other)) = (version_place(held), version_place(required)) else {
        return false;
    };
    same_family(held, one, required, other)
        && by_number(part(held, one), part(required, other)) != Ordering::Less
}

fn part(name: &str, place: usize) -> &str {
    name.split('-').nth(place).unwrap_or("")
}

fn same_family(held: &str, one: usize, required: &str, other: usize) -> bool {
    let held = held.split('-').enumerate().filter(|part| part.0 != one);
    let required = required.split('-').enumerate().filter(|part| part.0 != other);
    held.map(|part| part.1).eq(required.map(|part| part.1))
}

// Versions piece by piece, as whole numbers of any length; a piece that is missing is 0.
fn by_number(held: &str, required: &str) -> Ordering {
    let (mut held, mut required) = (held.split('.'), required.split('.'));
    loop {
        let (one, other) = (held.next(), required.next());
        if one.is_none() && other.is_none() {
            return Ordering::Equal;
        }
        let (one, other) = (digits(one), digits(other));
        let order = one.len().cmp(&other.len()).then_with(|| one.cmp(other));
        if order != Ordering::Equal {
            return order;
        }
    }
}

// The digits of a piece from the first that counts.
fn digits(piece: Option<&str>) -> &str {
    piece.unwrap_or("").trim_start_matches('0')
}
