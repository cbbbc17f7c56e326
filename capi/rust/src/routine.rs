//! Routines as text.

use crate::error::{Error, Place};
use crate::moving::{size_of, NO_ROOM};
use crate::sys::{self, Library};
use alloc::format;
use alloc::string::String;
use alloc::vec;
use alloc::vec::Vec;
use core::fmt;

/// A label of a routine.
#[derive(Clone, Debug, PartialEq, Eq, Hash)]
pub struct RoutineLabel {
    name: String,
    line: usize,
    address: Option<u64>,
}

impl RoutineLabel {
    /// Its name.
    #[must_use]
    pub fn name(&self) -> &str {
        &self.name
    }

    /// The number of its line in the text, from 1.
    #[must_use]
    pub const fn line(&self) -> usize {
        self.line
    }

    /// Its address. Only a label that follows 65536 instructions and bytes of data has none.
    #[must_use]
    pub const fn address(&self) -> Option<u64> {
        self.address
    }
}

/// A routine that was assembled.
///
/// ```
/// use feddurzai::assemble_code;
///
/// let made = assemble_code(64, 0x401000, "start: call done\ndone: pop rax\n ret", &[])?;
/// assert_eq!(made.code(), b"\xE8\x00\x00\x00\x00\x58\xC3");
/// assert_eq!((made.address("done"), made.labels()[0].name()), (Some(0x401005), "start"));
/// # Ok::<(), feddurzai::RoutineError>(())
/// ```
#[derive(Clone, Debug, PartialEq, Eq, Hash)]
pub struct Routine {
    code: Vec<u8>,
    slots: usize,
    labels: Vec<RoutineLabel>,
}

impl Routine {
    /// Its bytes: the instructions and the data in order, and if branches go through slots, a gap and the slots.
    #[must_use]
    pub fn code(&self) -> &[u8] {
        &self.code
    }

    /// The number of slots of 8 bytes at its end. They have the addresses that no branch reaches.
    #[must_use]
    pub const fn slots(&self) -> usize {
        self.slots
    }

    /// Its labels, in the order of their lines.
    #[must_use]
    pub fn labels(&self) -> &[RoutineLabel] {
        &self.labels
    }

    /// The address of the label of a name.
    #[must_use]
    pub fn address(&self, name: &str) -> Option<u64> {
        self.labels.iter().find(|label| label.name == name)?.address
    }
}

/// Why a routine is not assembled, and where.
///
/// ```
/// use feddurzai::{assemble_code, Error};
///
/// let refused = assemble_code(64, 0, "xor eax, eax\n mvo ecx, 5", &[]).unwrap_err();
/// assert_eq!((refused.line, refused.column, refused.error), (Some(2), Some(2), Error::NoText));
/// assert_eq!(refused.to_string(), "line 2, column 2: no instruction has this text");
/// ```
#[derive(Clone, Copy, Debug, PartialEq, Eq, Hash)]
pub struct RoutineError {
    /// The line of the text that is refused, or of the names ([`Error::BadNames`]), from 1; for [`Error::Wraps`] the last line with an
    /// instruction or data. `None` if no line is to blame.
    pub line: Option<usize>,
    /// The column of what is refused in a line of the text, from 1, counted in bytes.
    pub column: Option<usize>,
    /// Why. Instructions are counted with the bytes of data.
    pub error: Error,
}

impl RoutineError {
    /// The error of a negative status.
    fn of(status: i32, report: &sys::RoutineReport) -> RoutineError {
        let error = match Error::of(status, Place { at: report.at, address: report.address, count: 0 }) {
            Error::NoEncoding { cause, .. } => Error::NoEncoding { cause, operand: None },
            error => error,
        };
        let place = |number| usize::try_from(number).ok().filter(|&number| number > 0);
        RoutineError { line: place(report.line), column: place(report.column), error }
    }
}

impl From<Error> for RoutineError {
    fn from(error: Error) -> RoutineError {
        RoutineError { line: None, column: None, error }
    }
}

impl From<RoutineError> for Error {
    fn from(error: RoutineError) -> Error {
        error.error
    }
}

impl fmt::Display for RoutineError {
    fn fmt(&self, f: &mut fmt::Formatter<'_>) -> fmt::Result {
        match (self.line, self.column) {
            (Some(line), Some(column)) => write!(f, "line {}, column {}: ", line, column)?,
            (Some(line), None) => write!(f, "line {} of the names: ", line)?,
            _ => {}
        }
        match self.error {
            Error::NoText => f.write_str("no instruction has this text"),
            Error::TooMany { .. } => f.write_str("more than 65536 instructions and bytes of data"),
            Error::Wraps { end } => write!(f, "the routine ends at {:#x}, past the address space of the mode", end),
            error => error.fmt(f),
        }
    }
}

#[cfg(feature = "std")]
impl std::error::Error for RoutineError {
    fn source(&self) -> Option<&(dyn std::error::Error + 'static)> {
        Some(&self.error)
    }
}

/// Whether a name has the characters of one: letters, digits, `_`, `.`, `$` and `@`.
fn is_name(name: &str) -> bool {
    name.bytes().all(|letter| letter.is_ascii_alphanumeric() || b"_.$@".contains(&letter))
}

/// The names with their numbers as the library reads them, a line each.
fn lines_of(names: &[(&str, u64)]) -> Result<String, RoutineError> {
    let mut lines = String::new();
    for (k, (name, value)) in names.iter().enumerate() {
        if !is_name(name) {
            return Err(RoutineError { line: Some(k + 1), column: None, error: Error::BadNames });
        }
        lines.push_str(&format!("{} = {:#x}\n", name, value));
    }
    Ok(lines)
}

/// A label with its name, which is a part of the text.
fn label_of(text: &str, label: &sys::Label) -> Result<RoutineLabel, Error> {
    let (offset, len) = (size_of(label.offset)?, size_of(label.len)?);
    let name = text.get(offset..offset.saturating_add(len)).unwrap_or_default();
    let address = if label.has_address == 1 { Some(label.address) } else { None };
    Ok(RoutineLabel { name: name.into(), line: size_of(label.line)?, address })
}

/// Assembles a routine, with slots or without.
fn assembled(slots: bool, bitness: u32, base: u64, text: &str, names: &[(&str, u64)]) -> Result<Routine, RoutineError> {
    let library = Library::get()?;
    let names = lines_of(names)?;
    let mut report = sys::RoutineReport::default();
    let (mut code, mut labels) = (Vec::new(), Vec::new());
    let mut status = library.assemble_code(slots, bitness, base, text, &names, &mut code, &mut labels, &mut report);
    if status == NO_ROOM {
        code = vec![0; size_of(report.bytes)?];
        labels = vec![sys::Label::default(); size_of(report.labels)?];
        status = library.assemble_code(slots, bitness, base, text, &names, &mut code, &mut labels, &mut report);
    }
    if status < 0 {
        return Err(RoutineError::of(status, &report));
    }
    let labels = labels.iter().map(|label| label_of(text, label)).collect::<Result<_, _>>()?;
    Ok(Routine { code, slots: size_of(report.slots)?, labels })
}

/// Assembles a routine whose first byte lies at `base`. No branch is longer than it has to be.
///
/// Each line of `text` has, each optional, a label and a colon; an instruction in Intel syntax as people write it, data
/// (`db`, `dw`, `dd`, `dq`), or an alignment (`align 16`); and a comment from `;` or `#` on. A label may be named wherever a
/// number stands. `names` are names with numbers, as the addresses of functions. `docs/assembler.md` of the sources
/// describes the texts.
///
/// In 64-bit mode a branch to an address that is out of reach goes through a slot of 8 bytes behind the code;
/// [`assemble_code_near`] refuses it.
///
/// # Errors
///
/// [`Error::BadMode`], [`Error::BadNames`], [`Error::TooManyLabels`]; for the first line that is refused [`Error::NoText`],
/// [`Error::NoSize`], [`Error::BadData`], [`Error::UnknownName`], [`Error::PlacedTwice`], [`Error::Unfit`],
/// [`Error::BadAlignment`], [`Error::BadLabel`], [`Error::TooMany`] or [`Error::NoEncoding`]; then [`Error::Unplaced`], [`Error::Wraps`],
/// [`Error::TooFar`], [`Error::Unsettled`] or [`Error::NoMemory`].
///
/// ```
/// use feddurzai::assemble_code;
///
/// let made = assemble_code(64, 0x401000, "again: dec ecx\n jne again\n call puts\n ret", &[("puts", 0x401180)])?;
/// assert_eq!(made.code(), b"\xFF\xC9\x75\xFC\xE8\x77\x01\x00\x00\xC3");
/// # Ok::<(), feddurzai::RoutineError>(())
/// ```
pub fn assemble_code(bitness: u32, base: u64, text: &str, names: &[(&str, u64)]) -> Result<Routine, RoutineError> {
    assembled(true, bitness, base, text, names)
}

/// Assembles a routine as [`assemble_code`] does, without slots: in 64-bit mode a branch to an address that is out of
/// reach is refused.
///
/// # Errors
///
/// Those of [`assemble_code`]. [`Error::TooFar`] is then also the first branch that would go through a slot.
///
/// ```
/// use feddurzai::{assemble_code_near, Error};
///
/// let refused = assemble_code_near(64, 0x8000000a, "dec ecx\n jmp start", &[("start", 0x10)]).unwrap_err();
/// assert_eq!((refused.line, refused.error), (Some(2), Error::TooFar { instruction: 1, target: 0x10 }));
/// ```
pub fn assemble_code_near(bitness: u32, base: u64, text: &str, names: &[(&str, u64)]) -> Result<Routine, RoutineError> {
    assembled(false, bitness, base, text, names)
}
