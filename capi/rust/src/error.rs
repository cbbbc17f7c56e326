//! Why a call is refused.

use crate::sight::SightEnd;
#[cfg(feature = "alloc")]
use crate::sys;
use core::fmt;

/// Why the library refuses a call.
///
/// Each variant is a status of `feddurzai.h`, with the place that the library reports. A call returns the first refusal
/// that applies, in the order that the header names for its function.
///
/// ```
/// use feddurzai::{Cause, Code, Error, Instruction, Register};
///
/// let push = Instruction::with1(Code::Push_r64, Register::RAX)?;
/// assert_eq!(push.encoded(16, 0), Err(Error::NoEncoding { cause: Cause::Row, operand: None }));
/// assert_eq!(
///     Error::TooFar { instruction: 2, target: 0x1000 }.to_string(),
///     "an instruction cannot reach its target from its new address: instruction 2, target 0x1000",
/// );
/// # Ok::<(), Error>(())
/// ```
#[derive(Clone, Copy, Debug, PartialEq, Eq, Hash)]
#[non_exhaustive]
pub enum Error {
    /// The bitness is not 16, 32 or 64.
    BadMode,
    /// No row of the table has this code.
    BadCode,
    /// A field of the instruction holds a number that means nothing.
    BadInstruction,
    /// The operands do not match the row of the code, or no row has the code.
    BadForm,
    /// A buffer is too small, a block is shorter than the bytes, or a region has its maximum number of blocks.
    NoRoom,
    /// No instruction begins with these bytes, whatever follows them.
    Invalid {
        /// The offset of the first of these bytes.
        at: u64,
    },
    /// The bytes end before the instruction does.
    TooShort {
        /// The offset of the first byte of the instruction.
        at: u64,
    },
    /// No row has this name and number, or no operand this index.
    NoName,
    /// `malloc` returned NULL.
    NoMemory,
    /// There are more bytes of code than one call takes.
    TooLarge,
    /// There are more than 65536 instructions.
    TooMany {
        /// The number of instructions.
        count: u64,
    },
    /// The old or the new code extends past the address space of the mode.
    Wraps {
        /// The end of the code, modulo 2^64.
        end: u64,
    },
    /// An instruction cannot reach its target from its new address.
    TooFar {
        /// The number of the instruction, from 0.
        instruction: u64,
        /// Its target.
        target: u64,
    },
    /// No instruction that can be encoded at the address has exactly this Intel text.
    NoText,
    /// No register has this class and number.
    NoRegister,
    /// The function is shorter than the jump to its replacement.
    Small {
        /// The size of the function in bytes.
        function: u64,
        /// The size of the jump in bytes.
        jump: u64,
    },
    /// Control ends within the bytes to be overwritten, and other code follows there.
    Ends {
        /// The offset at which control ends.
        at: u64,
    },
    /// Control may enter the bytes to be overwritten after the first one, or go back to the start in mid-function.
    Entered {
        /// The offset that control comes from.
        from: u64,
        /// The offset that control goes to.
        to: u64,
    },
    /// The numbers describe no region.
    BadRegion,
    /// A block must have at least 1 byte.
    Empty,
    /// No gap of the region is long enough.
    Full,
    /// No live block starts at this address.
    NotLive,
    /// Control cannot be followed through the whole function.
    Unseen {
        /// The first reached offset at which sight ends.
        at: u64,
        /// Why it ends there.
        why: SightEnd,
    },
    /// The trampoline would lie in the bytes of the function.
    Overlaps,
    /// A moved call would hand an address in the trampoline to what it calls.
    Calls {
        /// Its offset.
        at: u64,
    },
    /// The padding in front of the function cannot be used: no padding begins at an offset in it, or it is too short.
    Padding {
        /// The offset at which no padding begins, or the number of bytes of the padding.
        at: u64,
        /// How many bytes the jump needs if the padding is too short, else 0.
        need: u64,
    },
    /// The instruction has no encoding: the first of ten conditions that fails.
    NoEncoding {
        /// The condition.
        cause: Cause,
        /// The first operand that fails it, or `None` if it concerns the whole instruction.
        operand: Option<u32>,
    },
    /// A line of the names is no name with a number. The name may be a word of operands, as a register is.
    BadNames,
    /// A text has more than 65536 labels.
    TooManyLabels,
    /// Addresses of several sizes fit a text, and no operand tells which.
    NoSize,
    /// Data has what is no number that fits, and no string.
    BadData,
    /// No line has a label of this name.
    UnknownName,
    /// An earlier line has a label of the same name.
    PlacedTwice,
    /// A label that is used follows 65536 instructions and bytes of data.
    Unplaced {
        /// The number of the instruction that uses it, from 0.
        instruction: u64,
    },
    /// The address of a label does not fit where it stands.
    Unfit,
    /// An alignment is no power of two from 1 to 4096.
    BadAlignment,
    /// The addresses of the labels did not settle in 16 rounds.
    Unsettled,
    /// A label is a register or another word of an operand, a mnemonic or a prefix.
    BadLabel,
    /// The instructions of a block are not decoded ones that lie one after another.
    Scattered {
        /// The number of the first instruction that does not begin where the one before it ends.
        instruction: u64,
    },
    /// The linked library has another interface than this crate: both must be of one version.
    Interface {
        /// The interface of the library.
        library: u32,
    },
    /// A status that this crate does not know.
    Other {
        /// The status, a negative number.
        status: i32,
    },
}

/// Why an instruction has no encoding: the first of ten conditions that fails.
///
/// ```
/// use feddurzai::{Cause, Code, Error, Instruction};
///
/// let far = Instruction::with_branch(Code::Jmp_rel8_64, 0x2000)?;
/// let refused = far.encoded(64, 0x1000).unwrap_err();
/// assert_eq!(refused, Error::NoEncoding { cause: Cause::Target, operand: Some(0) });
/// assert_eq!(refused.to_string(), "no encoding: operand 0: the target is out of reach");
/// # Ok::<(), Error>(())
/// ```
#[derive(Clone, Copy, Debug, PartialEq, Eq, Hash)]
#[non_exhaustive]
pub enum Cause {
    /// No row of the table that exists in the mode has the code.
    Row,
    /// The row takes no operand of this kind here.
    Kind,
    /// This register cannot be encoded here.
    Register,
    /// Base, index and scale are not an address of the mode.
    Memory,
    /// The address has no displacement of this width or value.
    Displacement,
    /// The immediate does not fit its size.
    Immediate,
    /// The target is out of reach.
    Target,
    /// LOCK or a repeat prefix is not allowed.
    Prefix,
    /// The address size is missing, superfluous, or not that of the operand.
    AddressSize,
    /// The encoding would have more than 15 bytes.
    Length,
}

impl Cause {
    /// The cause of a status of -256 or below.
    fn of(number: i32) -> Option<Cause> {
        Some(match number {
            1 => Cause::Row,
            2 => Cause::Kind,
            3 => Cause::Register,
            4 => Cause::Memory,
            5 => Cause::Displacement,
            6 => Cause::Immediate,
            7 => Cause::Target,
            8 => Cause::Prefix,
            9 => Cause::AddressSize,
            10 => Cause::Length,
            _ => return None,
        })
    }

    /// Whether the cause concerns an operand, and not the whole instruction.
    fn is_of_operand(self) -> bool {
        !matches!(self, Cause::Row | Cause::Prefix | Cause::AddressSize | Cause::Length)
    }
}

impl fmt::Display for Cause {
    fn fmt(&self, f: &mut fmt::Formatter<'_>) -> fmt::Result {
        f.write_str(match self {
            Cause::Row => "no row of the table that exists in the mode has the code",
            Cause::Kind => "the row takes no operand of this kind here",
            Cause::Register => "this register cannot be encoded here",
            Cause::Memory => "base, index and scale are not an address of the mode",
            Cause::Displacement => "the address has no displacement of this width or value",
            Cause::Immediate => "the immediate does not fit its size",
            Cause::Target => "the target is out of reach",
            Cause::Prefix => "LOCK or a repeat prefix is not allowed",
            Cause::AddressSize => "the address size is missing, superfluous, or not that of the operand",
            Cause::Length => "the encoding would have more than 15 bytes",
        })
    }
}

/// What a report says of the place of a refusal.
#[derive(Clone, Copy, Default)]
pub(crate) struct Place {
    pub at: u64,
    pub address: u64,
    pub count: u64,
}

/// Returns a status of 0 or more, and the error of any other.
#[inline]
pub(crate) fn taken(status: i32) -> Result<usize, Error> {
    if status >= 0 {
        Ok(status as usize)
    } else {
        Err(Error::of(status, Place::default()))
    }
}

impl Error {
    /// The error of a negative status, with the place that a report names.
    #[cold]
    pub(crate) fn of(status: i32, place: Place) -> Error {
        match status {
            -1 => Error::BadMode,
            -3 => Error::BadCode,
            -4 => Error::BadInstruction,
            -5 => Error::BadForm,
            -6 => Error::NoRoom,
            -7 => Error::Invalid { at: place.at },
            -8 => Error::TooShort { at: place.at },
            -9 => Error::NoName,
            -10 => Error::NoMemory,
            -11 => Error::TooLarge,
            -12 => Error::TooMany { count: place.count },
            -13 => Error::Wraps { end: place.address },
            -14 => Error::TooFar { instruction: place.at, target: place.address },
            -16 => Error::NoText,
            -17 => Error::NoRegister,
            -20 => Error::Small { function: place.at, jump: place.address },
            -21 => Error::Ends { at: place.at },
            -22 => Error::Entered { from: place.at, to: place.address },
            -24 => Error::BadRegion,
            -25 => Error::Empty,
            -26 => Error::Full,
            -27 => Error::NotLive,
            -28 => Error::Unseen { at: place.at, why: SightEnd::of(place.address) },
            -29 => Error::Overlaps,
            -30 => Error::Calls { at: place.at },
            -31 => Error::Padding { at: place.at, need: place.address },
            -33 => Error::BadNames,
            -34 => Error::TooManyLabels,
            -35 => Error::NoSize,
            -36 => Error::BadData,
            -37 => Error::UnknownName,
            -38 => Error::PlacedTwice,
            -39 => Error::Unplaced { instruction: place.at },
            -40 => Error::Unfit,
            -41 => Error::BadAlignment,
            -42 => Error::Unsettled,
            -43 => Error::BadLabel,
            _ => Error::of_encoding(status),
        }
    }

    /// The same error of a hook, with its offsets in the function counted from a byte that lies so many bytes before.
    #[cfg(feature = "alloc")]
    pub(crate) fn behind(self, kept: u64) -> Error {
        match self {
            Error::Invalid { at } => Error::Invalid { at: at + kept },
            Error::TooShort { at } => Error::TooShort { at: at + kept },
            Error::Ends { at } => Error::Ends { at: at + kept },
            Error::Entered { from, to } => Error::Entered { from: from + kept, to: to + kept },
            Error::Calls { at } => Error::Calls { at: at + kept },
            Error::Unseen { at, why } => Error::Unseen { at: at + kept, why },
            other => other,
        }
    }

    /// The error of a status that says why an instruction has no encoding, or of an unknown one.
    fn of_encoding(status: i32) -> Error {
        let number = status.wrapping_neg();
        match Cause::of(number >> 8) {
            Some(cause) => Error::NoEncoding { cause, operand: cause.is_of_operand().then_some((number & 255) as u32) },
            None => Error::Other { status },
        }
    }
}

impl fmt::Display for Error {
    fn fmt(&self, f: &mut fmt::Formatter<'_>) -> fmt::Result {
        match *self {
            Error::BadMode => f.write_str("the bitness must be 16, 32 or 64"),
            Error::BadCode => f.write_str("no row of the table has this code"),
            Error::BadInstruction => f.write_str("not an instruction: a field holds a number that means nothing"),
            Error::BadForm => f.write_str("the operands do not match the row of the code, or no row has the code"),
            Error::NoRoom => f.write_str("a buffer is too small, or a region has its maximum number of blocks"),
            Error::Invalid { at } => {
                write!(f, "no instruction begins with these bytes, whatever follows them: at offset {}", at)
            }
            Error::TooShort { at } => write!(f, "the bytes end before the instruction does: at offset {}", at),
            Error::NoName => f.write_str("no row has this name and number"),
            Error::NoMemory => f.write_str("out of memory"),
            Error::TooLarge => f.write_str("more bytes of code than one call takes"),
            Error::TooMany { count } => write!(f, "more than 65536 instructions: there are {}", count),
            Error::Wraps { end } => {
                write!(f, "the old or the new code extends past the address space of the mode: it ends at {:#x}", end)
            }
            Error::TooFar { instruction, target } => write!(
                f,
                "an instruction cannot reach its target from its new address: instruction {}, target {:#x}",
                instruction, target
            ),
            Error::NoText => {
                f.write_str("no instruction that can be encoded at this address has exactly this Intel text")
            }
            Error::NoRegister => f.write_str("no register has this class and number"),
            Error::Small { function, jump } => write!(
                f,
                "the function is shorter than the jump: the function has {} bytes, the jump {}",
                function, jump
            ),
            Error::Ends { at } => write!(
                f,
                "control ends within the bytes to be overwritten, and other code follows: at offset {}",
                at
            ),
            Error::Entered { from, to } => write!(
                f,
                "control may enter the bytes to be overwritten: from offset {}, to offset {}",
                from, to
            ),
            Error::BadRegion => f.write_str(
                "not a region: its size must be a multiple of 16 from 16 to 1048576, for 1 to 65536 blocks, \
                 and it must end in the address space",
            ),
            Error::Empty => f.write_str("a block must have at least 1 byte"),
            Error::Full => {
                f.write_str("no gap of the region is long enough: release a block or request fewer bytes")
            }
            Error::NotLive => f.write_str("no live block starts at this address"),
            Error::Unseen { at, why } => {
                write!(f, "control cannot be followed through the whole function: at offset {} {}", at, why)
            }
            Error::Overlaps => f.write_str("the trampoline would lie in the bytes of the function"),
            Error::Calls { at } => {
                write!(f, "a moved call would hand an address in the trampoline to what it calls: at offset {}", at)
            }
            Error::Padding { at, need: 0 } => {
                write!(f, "the padding in front of the function cannot be used: at offset {}", at)
            }
            Error::Padding { at, need } => {
                write!(f, "the padding in front of the function has {} bytes, the jump {}", at, need)
            }
            Error::BadNames => f.write_str("not a name with a number: it may be a word of operands, as a register is"),
            Error::TooManyLabels => f.write_str("more than 65536 labels"),
            Error::NoSize => f.write_str("addresses of several sizes fit: write byte, word, dword or another size"),
            Error::BadData => f.write_str("not a number that fits, and not a string"),
            Error::UnknownName => f.write_str("no line has a label of this name"),
            Error::PlacedTwice => f.write_str("an earlier line has a label of the same name"),
            Error::Unfit => f.write_str("the address of a label does not fit there"),
            Error::BadAlignment => f.write_str("an alignment is a power of two from 1 to 4096"),
            Error::Unsettled => f.write_str("the addresses of the labels do not settle"),
            Error::BadLabel => f.write_str("a label is no register, no word of an operand, no mnemonic and no prefix"),
            Error::Unplaced { instruction } => write!(
                f,
                "a label that is used follows 65536 instructions and bytes of data: in instruction {}",
                instruction
            ),
            Error::NoEncoding { cause, operand: Some(operand) } => {
                write!(f, "no encoding: operand {}: {}", operand, cause)
            }
            Error::NoEncoding { cause, operand: None } => write!(f, "no encoding: {}", cause),
            Error::Scattered { instruction } => write!(
                f,
                "the instructions are not decoded ones that lie one after another: instruction {}",
                instruction
            ),
            Error::Interface { library } => write!(
                f,
                "the linked libfeddurzai has interface {}, but this crate needs interface {}: use both from one version",
                library,
                crate::generated::INTERFACE
            ),
            Error::Other { status } => write!(f, "unknown status {}", status),
        }
    }
}

#[cfg(feature = "std")]
impl std::error::Error for Error {}

#[cfg(feature = "std")]
impl std::error::Error for Cause {}

/// The refusal of several blocks: the block that fails, and why.
///
/// ```
/// use feddurzai::{move_blocks, Block, Error};
///
/// let code = [0x90, 0x06];
/// let refused = move_blocks(64, &[Block::new(0, &code[..1], 0x100), Block::new(0x10, &code, 0x200)]).unwrap_err();
/// assert_eq!((refused.block, refused.error), (Some(1), Error::Invalid { at: 1 }));
/// assert_eq!(
///     refused.to_string(),
///     "block 1: no instruction begins with these bytes, whatever follows them: at offset 1",
/// );
/// ```
#[derive(Clone, Copy, Debug, PartialEq, Eq, Hash)]
pub struct BlocksError {
    /// The number of the block that fails, from 0, or `None` if no block is to blame.
    pub block: Option<usize>,
    /// Why. Offsets and numbers of instructions count within the block.
    pub error: Error,
}

#[cfg(feature = "alloc")]
impl BlocksError {
    /// The error of a negative status.
    pub(crate) fn of(status: i32, report: &sys::BlocksReport, blocks: usize) -> BlocksError {
        let place = Place { at: report.at, address: report.address, count: report.count };
        let error = Error::of(status, place);
        let blames = matches!(
            error,
            Error::Invalid { .. } | Error::TooShort { .. } | Error::Wraps { .. } | Error::TooFar { .. }
        );
        let block = usize::try_from(report.block).ok().filter(|&block| blames && block < blocks);
        BlocksError { block, error }
    }
}

impl From<Error> for BlocksError {
    fn from(error: Error) -> BlocksError {
        BlocksError { block: None, error }
    }
}

impl From<BlocksError> for Error {
    fn from(error: BlocksError) -> Error {
        error.error
    }
}

impl fmt::Display for BlocksError {
    fn fmt(&self, f: &mut fmt::Formatter<'_>) -> fmt::Result {
        match self.block {
            Some(block) => write!(f, "block {}: {}", block, self.error),
            None => self.error.fmt(f),
        }
    }
}

#[cfg(feature = "std")]
impl std::error::Error for BlocksError {
    fn source(&self) -> Option<&(dyn std::error::Error + 'static)> {
        Some(&self.error)
    }
}
