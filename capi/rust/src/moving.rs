//! Code that is moved to other addresses.

use crate::error::{BlocksError, Error, Place};
use crate::instruction::Instruction;
use crate::sys::{self, Library, MoveOut, Mover};
use alloc::vec;
use alloc::vec::Vec;

/// The status of a buffer that is too small: the report then has the sizes.
pub(crate) const NO_ROOM: i32 = -6;

/// The form of a moved instruction. `docs/moving.md` of the sources lists the bytes of each.
///
/// ```
/// use feddurzai::{move_code, MovedForm};
///
/// // je 0x1012, moved out of reach: a branch through a slot
/// let moved = move_code(64, 0x1000, b"\x74\x10", 0x7fff_0000_0000)?;
/// assert_eq!(moved.instructions()[0].form, MovedForm::Far);
/// # Ok::<(), feddurzai::Error>(())
/// ```
#[derive(Clone, Copy, Debug, PartialEq, Eq, Hash)]
#[non_exhaustive]
pub enum MovedForm {
    /// The instruction, with its targets adjusted.
    Itself,
    /// A branch with an offset of 8 bits.
    Short,
    /// A branch with an offset of 32 bits, 16 in 16-bit code.
    Near,
    /// 64-bit mode: a branch through a slot of 8 bytes after the code.
    Far,
    /// A short branch to a near jump, for LOOP, LOOPE, LOOPNE and JRCXZ.
    Bridge,
    /// 64-bit mode: a short branch to a jump through a slot.
    FarBridge,
}

impl MovedForm {
    fn of(form: u8) -> MovedForm {
        match form {
            1 => MovedForm::Short,
            2 => MovedForm::Near,
            3 => MovedForm::Far,
            4 => MovedForm::Bridge,
            5 => MovedForm::FarBridge,
            _ => MovedForm::Itself,
        }
    }
}

/// The old and the new address of a moved instruction.
///
/// ```
/// use feddurzai::move_code;
///
/// let moved = move_code(64, 0x1000, b"\x90\xC3", 0x2000)?;
/// let ret = moved.instructions()[1];
/// assert_eq!((ret.old_ip, ret.new_ip, ret.len), (0x1001, 0x2001, 1));
/// # Ok::<(), feddurzai::Error>(())
/// ```
#[derive(Clone, Copy, Debug, PartialEq, Eq, Hash)]
pub struct MovedInstruction {
    /// Its old address.
    pub old_ip: u64,
    /// Its new address.
    pub new_ip: u64,
    /// Its old length in bytes.
    pub len: usize,
    /// Its form.
    pub form: MovedForm,
}

impl MovedInstruction {
    fn of(moved: &sys::Moved) -> MovedInstruction {
        MovedInstruction {
            old_ip: moved.old_ip,
            new_ip: moved.new_ip,
            len: usize::from(moved.len),
            form: MovedForm::of(moved.form),
        }
    }
}

/// Moved code.
///
/// ```
/// use feddurzai::move_code;
///
/// // je 0x1012, moved out of reach: jne over jmp [rip], and the slot with the target
/// let moved = move_code(64, 0x1000, b"\x74\x10", 0x7fff_0000_0000)?;
/// assert_eq!((moved.code().len(), moved.code_len()), (16, 8));
/// assert_eq!(moved.code()[8..], 0x1012_u64.to_le_bytes());
/// # Ok::<(), feddurzai::Error>(())
/// ```
#[derive(Clone, Debug, PartialEq, Eq)]
pub struct MovedCode {
    code: Vec<u8>,
    code_len: usize,
    instructions: Vec<MovedInstruction>,
}

impl MovedCode {
    /// The bytes, with their slots.
    #[must_use]
    pub fn code(&self) -> &[u8] {
        &self.code
    }

    /// The bytes, with their slots.
    #[must_use]
    pub fn into_code(self) -> Vec<u8> {
        self.code
    }

    /// The number of bytes without the slots: control continues at this offset. Append a jump back there, and not after
    /// the slots, where it is never reached. There is space for it if there are no slots, that is if all targets are
    /// within 2 gigabytes.
    #[must_use]
    pub const fn code_len(&self) -> usize {
        self.code_len
    }

    /// Whether there are slots after the code.
    #[must_use]
    pub fn has_slots(&self) -> bool {
        self.code_len != self.code.len()
    }

    /// The instructions, in order.
    #[must_use]
    pub fn instructions(&self) -> &[MovedInstruction] {
        &self.instructions
    }
}

/// A size of a report. One that no memory holds is out of memory.
pub(crate) fn size_of(number: u64) -> Result<usize, Error> {
    usize::try_from(number).map_err(|_| Error::NoMemory)
}

/// Moves code to another address. Near branches and operands at RIP or EIP keep their targets, and a target that is
/// itself moved is followed to its new address.
///
/// The bytes must be instructions from end to end, and nothing outside may jump into the middle of one. A target that is
/// the start of a moved instruction is followed, even if it is the first one: so a jump to the end of the code that is
/// appended to the code targets itself. [`move_code_outside`] keeps every target instead.
///
/// # Errors
///
/// [`Error::BadMode`], [`Error::TooLarge`] (more than 1 MiB), [`Error::Wraps`], [`Error::Invalid`],
/// [`Error::TooShort`], [`Error::TooMany`], [`Error::TooFar`] or [`Error::NoMemory`].
///
/// ```
/// use feddurzai::move_code;
///
/// // call 0x2000 at 0x1000
/// let moved = move_code(64, 0x1000, b"\xE8\xFB\x0F\x00\x00", 0x1800)?;
/// assert_eq!(moved.code(), b"\xE8\xFB\x07\x00\x00");
/// # Ok::<(), feddurzai::Error>(())
/// ```
pub fn move_code(bitness: u32, old_ip: u64, code: &[u8], new_ip: u64) -> Result<MovedCode, Error> {
    moved_by(Mover::Following, bitness, old_ip, code, new_ip)
}

/// Moves code and keeps every target: a branch or an operand at RIP or EIP still reaches its old target, even if that is
/// one of the moved instructions. Use it for a single instruction, and for code with a jump to its old end appended.
///
/// # Errors
///
/// Those of [`move_code`].
///
/// ```
/// use feddurzai::move_code_outside;
///
/// // a loop of one instruction goes back to its old address
/// let moved = move_code_outside(64, 0x1000, b"\xEB\xFE", 0x1080)?;
/// assert_eq!(moved.code(), b"\xE9\x7B\xFF\xFF\xFF");
/// # Ok::<(), feddurzai::Error>(())
/// ```
pub fn move_code_outside(bitness: u32, old_ip: u64, code: &[u8], new_ip: u64) -> Result<MovedCode, Error> {
    moved_by(Mover::Outside, bitness, old_ip, code, new_ip)
}

/// Moves code as [`move_code`] does, with the instructions that the opcode table leaves out and
/// `feddurzai_measure` measures. Such an instruction is moved whole: its bytes, except that its relative number
/// is set so that it refers to the same address, or to the moved instruction that began there.
///
/// # Errors
///
/// Those of [`move_code`].
///
/// ```
/// use feddurzai::move_code_unlisted;
///
/// // vpxord zmm0, zmm0, [rip+0x10] refers to 0x101a, also at 0x2000; the jump to it follows it
/// let code = b"\x62\xF1\x7D\x48\xEF\x05\x10\0\0\0\xEB\xF4";
/// let moved = move_code_unlisted(64, 0x1000, code, 0x2000)?;
/// assert_eq!(moved.code(), b"\x62\xF1\x7D\x48\xEF\x05\x10\xF0\xFF\xFF\xEB\xF4");
/// # Ok::<(), feddurzai::Error>(())
/// ```
pub fn move_code_unlisted(bitness: u32, old_ip: u64, code: &[u8], new_ip: u64) -> Result<MovedCode, Error> {
    moved_by(Mover::Unlisted, bitness, old_ip, code, new_ip)
}

fn moved_by(mover: Mover, bitness: u32, old_ip: u64, bytes: &[u8], new_ip: u64) -> Result<MovedCode, Error> {
    let library = Library::get()?;
    let mut report = sys::MoveReport::default();
    let out = MoveOut { code: &mut [], map: &mut [] };
    let mut status = library.move_code(mover, bitness, old_ip, bytes, new_ip, out, &mut report);
    let (mut code, mut map) = (Vec::new(), Vec::new());
    if status == NO_ROOM {
        code = vec![0; size_of(report.bytes)?];
        map = vec![sys::Moved::default(); size_of(report.count)?];
        let out = MoveOut { code: &mut code, map: &mut map };
        status = library.move_code(mover, bitness, old_ip, bytes, new_ip, out, &mut report);
    }
    if status < 0 {
        return Err(Error::of(status, Place { at: report.at, address: report.address, count: report.count }));
    }
    let code_len = size_of(report.code_bytes)?;
    Ok(MovedCode { code, code_len, instructions: map.iter().map(MovedInstruction::of).collect() })
}

/// A block of code, for [`move_blocks`].
///
/// ```
/// let block = feddurzai::Block::new(0x1000, b"\x90", 0x2000);
/// assert_eq!(block.new_ip, 0x2000);
/// ```
#[derive(Clone, Copy, Debug, PartialEq, Eq, Hash)]
pub struct Block<'a> {
    /// The address of its first byte.
    pub old_ip: u64,
    /// Its bytes.
    pub code: &'a [u8],
    /// The new address of its first byte.
    pub new_ip: u64,
}

impl<'a> Block<'a> {
    /// A block.
    #[must_use]
    pub const fn new(old_ip: u64, code: &'a [u8], new_ip: u64) -> Block<'a> {
        Block { old_ip, code, new_ip }
    }
}

/// Moves several blocks of code at once, each to an address of its own. Targets are kept as by [`move_code`], and a target
/// that is the start of an instruction of any of the blocks is followed.
///
/// # Errors
///
/// Those of [`move_code`], with the number of the block.
///
/// ```
/// use feddurzai::{move_blocks, Block};
///
/// // jne 0x1100; ret, and far from it: jmp 0x1006
/// let hot = Block::new(0x1000, b"\x0F\x85\xFA\x00\x00\x00\xC3", 0x2000);
/// let cold = Block::new(0x1100, b"\xE9\x01\xFF\xFF\xFF", 0x2020);
/// let moved = move_blocks(64, &[hot, cold])?;
/// assert_eq!(moved[0].code(), b"\x0F\x85\x1A\x00\x00\x00\xC3");
/// assert_eq!(moved[1].code(), b"\xE9\xE1\xFF\xFF\xFF");
/// # Ok::<(), feddurzai::BlocksError>(())
/// ```
pub fn move_blocks(bitness: u32, blocks: &[Block<'_>]) -> Result<Vec<MovedCode>, BlocksError> {
    let library = Library::get()?;
    let bytes: Vec<u8> = blocks.iter().flat_map(|block| block.code).copied().collect();
    let mut offset = 0;
    let rows: Vec<sys::Block> = blocks
        .iter()
        .map(|block| {
            let len = block.code.len() as u64;
            offset += len;
            sys::Block { old_ip: block.old_ip, new_ip: block.new_ip, offset: offset - len, len }
        })
        .collect();
    let mut report = sys::BlocksReport::default();
    let out = MoveOut { code: &mut [], map: &mut [] };
    let mut status = library.move_blocks(bitness, &bytes, &rows, out, &mut [], &mut report);
    let (mut code, mut map, mut places) = (Vec::new(), Vec::new(), Vec::new());
    if status == NO_ROOM {
        code = vec![0; size_of(report.bytes)?];
        map = vec![sys::Moved::default(); size_of(report.count)?];
        places = vec![sys::PlacedBlock::default(); rows.len()];
        let out = MoveOut { code: &mut code, map: &mut map };
        status = library.move_blocks(bitness, &bytes, &rows, out, &mut places, &mut report);
    }
    if status < 0 {
        return Err(BlocksError::of(status, &report, rows.len()));
    }
    split(&code, &map, &places).map_err(BlocksError::from)
}

/// The bytes and the instructions of each block.
fn split(code: &[u8], map: &[sys::Moved], places: &[sys::PlacedBlock]) -> Result<Vec<MovedCode>, Error> {
    let (mut start, mut first) = (0, 0);
    let mut moved = Vec::with_capacity(places.len());
    for place in places {
        let (end, last) = (size_of(place.end)?, first + size_of(place.count)?);
        moved.push(MovedCode {
            code: code.get(start..end).unwrap_or(&[]).to_vec(),
            code_len: size_of(place.code_bytes)?,
            instructions: map.get(first..last).unwrap_or(&[]).iter().map(MovedInstruction::of).collect(),
        });
        start = end;
        first = last;
    }
    Ok(moved)
}

/// Options of a [`BlockEncoder`].
///
/// ```
/// use feddurzai::BlockEncoderOptions;
///
/// assert_ne!(BlockEncoderOptions::NONE, BlockEncoderOptions::KEEP_TARGETS);
/// ```
#[derive(Clone, Copy, Debug, Default, PartialEq, Eq, Hash)]
pub struct BlockEncoderOptions {
    keeps_targets: bool,
}

impl BlockEncoderOptions {
    /// No options: a target that is itself moved is followed.
    pub const NONE: BlockEncoderOptions = BlockEncoderOptions { keeps_targets: false };

    /// Every target stays, even one that is moved, as by [`move_code_outside`]. The call then moves each block by itself.
    pub const KEEP_TARGETS: BlockEncoderOptions = BlockEncoderOptions { keeps_targets: true };
}

/// Instructions to move, and the new address of the first.
///
/// They are decoded instructions that lie one after another: their own bytes are moved.
///
/// ```
/// use feddurzai::{Decoder, DecoderOptions, InstructionBlock};
///
/// let code: Vec<_> = Decoder::new(64, b"\x90\xC3", DecoderOptions::NONE).into_iter().collect();
/// let block = InstructionBlock::new(&code, 0x2000);
/// assert_eq!((block.instructions.len(), block.rip), (2, 0x2000));
/// ```
#[derive(Clone, Copy, Debug)]
pub struct InstructionBlock<'a> {
    /// The instructions.
    pub instructions: &'a [Instruction],
    /// The new address of the first.
    pub rip: u64,
}

impl<'a> InstructionBlock<'a> {
    /// A block.
    #[must_use]
    pub const fn new(instructions: &'a [Instruction], rip: u64) -> InstructionBlock<'a> {
        InstructionBlock { instructions, rip }
    }

    /// The old address and the bytes.
    fn code(&self, bitness: u32) -> Result<(u64, Vec<u8>), Error> {
        let old_ip = self.instructions.first().map_or(0, Instruction::ip);
        let (mut bytes, mut next_ip) = (Vec::new(), old_ip);
        for (at, instruction) in self.instructions.iter().enumerate() {
            if instruction.bitness() != bitness {
                return Err(Error::BadMode);
            }
            if instruction.ip() != next_ip || instruction.bytes().is_empty() {
                return Err(Error::Scattered { instruction: at as u64 });
            }
            bytes.extend_from_slice(instruction.bytes());
            next_ip = instruction.next_ip();
        }
        Ok((old_ip, bytes))
    }
}

/// What [`BlockEncoder`] returns for a block.
///
/// ```
/// use feddurzai::{BlockEncoder, BlockEncoderOptions, Decoder, DecoderOptions, InstructionBlock};
///
/// let code: Vec<_> = Decoder::new(64, b"\x90\xC3", DecoderOptions::NONE).into_iter().collect();
/// let result = BlockEncoder::encode(64, InstructionBlock::new(&code, 0x2000), BlockEncoderOptions::NONE)?;
/// assert_eq!((result.rip, result.code_buffer), (0x2000, b"\x90\xC3".to_vec()));
/// assert_eq!(result.new_instruction_offsets, [0, 1]);
/// # Ok::<(), feddurzai::Error>(())
/// ```
#[derive(Clone, Debug, PartialEq, Eq)]
pub struct BlockEncoderResult {
    /// The new address of the first instruction.
    pub rip: u64,
    /// The bytes, with their slots.
    pub code_buffer: Vec<u8>,
    /// The number of bytes without the slots: control continues at this offset.
    pub code_len: usize,
    /// The offset of each instruction in the bytes.
    pub new_instruction_offsets: Vec<u32>,
    /// The form of each instruction.
    pub forms: Vec<MovedForm>,
}

impl BlockEncoderResult {
    fn of(rip: u64, moved: MovedCode) -> BlockEncoderResult {
        let instructions = moved.instructions();
        let first = instructions.first().map_or(rip, |first| first.new_ip);
        BlockEncoderResult {
            rip,
            code_len: moved.code_len(),
            new_instruction_offsets: instructions.iter().map(|one| one.new_ip.wrapping_sub(first) as u32).collect(),
            forms: instructions.iter().map(|one| one.form).collect(),
            code_buffer: moved.into_code(),
        }
    }
}

/// Moves decoded instructions to other addresses.
///
/// Branches grow as far as the least closed layout requires (`docs/closed-layouts.md` of the sources); this is proved.
/// New instructions cannot be inserted.
///
/// ```
/// use feddurzai::{BlockEncoder, BlockEncoderOptions, Decoder, DecoderOptions, InstructionBlock};
///
/// // 74 10 at 0x1000: je 0x1012
/// let code: Vec<_> = Decoder::with_ip(64, b"\x74\x10", 0x1000, DecoderOptions::NONE).into_iter().collect();
/// let result = BlockEncoder::encode(64, InstructionBlock::new(&code, 0x2000), BlockEncoderOptions::NONE)?;
/// assert_eq!(result.code_buffer, b"\x0F\x84\x0C\xF0\xFF\xFF");
/// # Ok::<(), feddurzai::Error>(())
/// ```
#[derive(Clone, Copy, Debug)]
pub struct BlockEncoder(());

impl BlockEncoder {
    /// Moves a block.
    ///
    /// # Errors
    ///
    /// Those of [`move_code`]; [`Error::Scattered`] if the instructions are not decoded ones that lie one after another,
    /// and [`Error::BadMode`] if they were decoded in another mode.
    pub fn encode(
        bitness: u32,
        block: InstructionBlock<'_>,
        options: BlockEncoderOptions,
    ) -> Result<BlockEncoderResult, Error> {
        let (old_ip, code) = block.code(bitness)?;
        let mover = if options.keeps_targets { Mover::Outside } else { Mover::Following };
        let moved = moved_by(mover, bitness, old_ip, &code, block.rip)?;
        Ok(BlockEncoderResult::of(block.rip, moved))
    }

    /// Moves blocks. A target that is the start of an instruction of any of them is followed.
    ///
    /// # Errors
    ///
    /// Those of [`BlockEncoder::encode`], with the number of the block.
    pub fn encode_slice(
        bitness: u32,
        blocks: &[InstructionBlock<'_>],
        options: BlockEncoderOptions,
    ) -> Result<Vec<BlockEncoderResult>, BlocksError> {
        let of_block = |at| move |error| BlocksError { block: Some(at), error };
        let numbered = blocks.iter().enumerate();
        if options.keeps_targets {
            return numbered
                .map(|(at, &block)| BlockEncoder::encode(bitness, block, options).map_err(of_block(at)))
                .collect();
        }
        let codes = numbered
            .map(|(at, block)| block.code(bitness).map_err(of_block(at)))
            .collect::<Result<Vec<_>, BlocksError>>()?;
        let given: Vec<Block<'_>> =
            blocks.iter().zip(&codes).map(|(block, (old_ip, code))| Block::new(*old_ip, code, block.rip)).collect();
        let moved = move_blocks(bitness, &given)?;
        Ok(blocks.iter().zip(moved).map(|(block, moved)| BlockEncoderResult::of(block.rip, moved)).collect())
    }
}
