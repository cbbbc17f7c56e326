//! Decodes, encodes, prints, analyses and relocates x86 machine code (16, 32 and 64-bit).
//!
//! This crate is a safe interface to libfeddurzai, whose calls are proved: each meets a definition that a person can
//! read, for every value of its arguments. The crate has the shape of iced-x86; `docs/for-iced-users.md` of the sources
//! lists what differs.
//!
//! ```
//! use feddurzai::{Decoder, DecoderOptions, Formatter, IntelFormatter};
//!
//! let code = b"\x55\x48\x89\xE5\xE8\xF7\x0F\x00\x00\xC9\xC3";
//! let mut formatter = IntelFormatter::new();
//! let mut listing = String::new();
//! for instruction in Decoder::with_ip(64, code, 0x401000, DecoderOptions::NONE).iter() {
//!     listing.push_str(&format!("{:x} ", instruction.ip()));
//!     formatter.format(&instruction, &mut listing);
//!     listing.push('\n');
//! }
//! assert_eq!(listing, "401000 push rbp\n401001 mov rbp, rsp\n401004 call 0x402000\n401009 leave\n40100a ret\n");
//! ```
//!
//! | To | Use |
//! |---|---|
//! | decode | [`Decoder`], [`Instruction`] |
//! | print | [`IntelFormatter`], [`GasFormatter`], [`MasmFormatter`], [`FormatterOutput`] |
//! | analyse | [`InstructionInfoFactory`], [`flow_graph`], [`Code::op_code`], [`ConstantOffsets`] |
//! | construct and encode | [`Instruction::with2`], [`Encoder`], [`assemble`], [`jump()`] |
//! | assemble routines | [`assemble_code`], [`assemble_code_near`], [`Routine`] |
//! | move | [`BlockEncoder`], [`move_code`], [`move_blocks`], [`Region`] |
//! | hook, step | [`Detour`], [`look`], [`step()`], [`StepSlots`] |
//!
//! # Numbers
//!
//! A bitness is 16, 32 or 64. Addresses are 64-bit, and taken modulo 2^bitness. No call panics: a number out of range is
//! an [`Error`]. `malloc` is called by [`assemble_code`], [`assemble_code_near`], [`move_code`], [`move_code_outside`],
//! [`move_code_unlisted`], [`move_blocks`], [`BlockEncoder`], [`step()`], [`flow_graph`], [`basic_blocks`], [`Detour`] and
//! [`look`].
//!
//! # Linking
//!
//! The build script links the library in the folder that the environment variable `FEDDURZAI_LIB_DIR` names; else the one
//! that `capi/build.sh` has built, if the crate is in a clone; else the one that `pkg-config` finds. In a folder the
//! static library is preferred; `FEDDURZAI_STATIC` set to 0 or 1 chooses. The library must have the interface that the
//! crate was made for: otherwise every call returns [`Error::Interface`], and [`Decoder::new`] a decoder that finds no
//! instruction. [`check_library`] checks it first.
//!
//! # Features
//!
//! The crate is `no_std`. The feature `std`, on by default, implements `std::error::Error`. The feature `alloc`, which it
//! includes, has all that returns a `Vec` or a `String`; without it remain the decoder, the formatters, the constructors,
//! [`Instruction::encoded`], [`assemble`], [`jump()`] and [`InstructionInfoFactory`].

#![no_std]
#![deny(missing_docs, unsafe_code)]
#![warn(clippy::undocumented_unsafe_blocks)]

#[cfg(feature = "alloc")]
extern crate alloc;
#[cfg(feature = "std")]
extern crate std;

mod code;
mod create;
mod decoder;
#[cfg(feature = "alloc")]
mod detour;
mod encoder;
mod error;
#[cfg(feature = "alloc")]
mod flow;
mod formatter;
mod generated;
mod info;
mod instruction;
mod mnemonic;
#[cfg(feature = "alloc")]
mod moving;
mod offsets;
mod operand;
#[cfg(feature = "alloc")]
mod region;
mod register;
#[cfg(feature = "alloc")]
mod routine;
mod sight;
#[cfg(feature = "alloc")]
mod step;
mod sys;

pub use code::{Code, OpCodeInfo};
pub use decoder::{Decoder, DecoderError, DecoderIntoIter, DecoderIter, DecoderOptions};
#[cfg(feature = "alloc")]
pub use detour::{Detour, DetourForm, DetourRules, DetourStart, KeptDetour, MovedStart, PaddedDetour, SeenDetour};
#[cfg(feature = "alloc")]
pub use encoder::Encoder;
pub use encoder::{assemble, jump, read_intel, Jump, JumpBytes, MAX_INSTRUCTION_LENGTH};
pub use error::{BlocksError, Cause, Error};
#[cfg(feature = "alloc")]
pub use flow::{basic_blocks, flow_graph, flow_graph_unlisted, FlowGraph, Reached, ReachedKind};
pub use formatter::{
    line_text, Formatter, FormatterOutput, FormatterSyntax, FormatterTextKind, GasFormatter, IntelFormatter,
    MasmFormatter, NasmFormatter,
};
pub use generated::INTERFACE;
pub use info::{
    CpuidFeature, CpuidFeatures, FlowControl, InstructionInfo, InstructionInfoFactory, OpAccess, RflagsBits,
    UsedMemory, UsedRegister,
};
pub use instruction::{EncodedBytes, Instruction};
pub use mnemonic::Mnemonic;
#[cfg(feature = "alloc")]
pub use moving::{
    move_blocks, move_code, move_code_outside, move_code_unlisted, Block, BlockEncoder, BlockEncoderOptions,
    BlockEncoderResult, InstructionBlock, MovedCode, MovedForm, MovedInstruction,
};
pub use offsets::{ConstantOffsets, Part};
pub use operand::{MemoryOperand, OpKind, Operand};
#[cfg(feature = "alloc")]
pub use region::{LiveBlock, Region};
pub use register::{Register, RegisterClass};
#[cfg(feature = "alloc")]
pub use routine::{assemble_code, assemble_code_near, Routine, RoutineError, RoutineLabel};
pub use sight::SightEnd;
#[cfg(feature = "alloc")]
pub use sight::{look, Passage, Sight, StartRule, View};
#[cfg(feature = "alloc")]
pub use step::{step, step_call, step_len, step_unlisted, Step, StepCall, StepSlot, StepSlots};
pub use sys::Text;

#[doc(hidden)]
pub use sys::each_layout;

/// Returns the version of the linked library: major, minor, patch.
///
/// ```
/// assert!(feddurzai::version() >= (0, 2, 0));
/// ```
#[must_use]
pub fn version() -> (u8, u8, u8) {
    let [_, major, minor, patch] = sys::version().to_be_bytes();
    (major, minor, patch)
}

/// Returns the interface of the linked library.
///
/// ```
/// assert_eq!(feddurzai::interface(), feddurzai::INTERFACE);
/// ```
#[must_use]
pub fn interface() -> u32 {
    sys::interface()
}

/// Checks that the linked library has the interface that this crate was made for.
///
/// # Errors
///
/// [`Error::Interface`].
///
/// ```
/// feddurzai::check_library()?;
/// # Ok::<(), feddurzai::Error>(())
/// ```
pub fn check_library() -> Result<(), Error> {
    sys::Library::get().map(|_| ())
}
