//! The encoder, jumps, and texts that are read.

use crate::error::{taken, Error};
use crate::instruction::{checked_mode, mask_of, EncodedBytes, Instruction};
use crate::sys::{Library, MAX_JUMP, MAX_LEN};

#[cfg(feature = "alloc")]
use crate::offsets::ConstantOffsets;
#[cfg(feature = "alloc")]
use alloc::vec::Vec;

/// Encodes instructions into a buffer, each in its shortest bytes.
///
/// ```
/// use feddurzai::{Code, Encoder, Instruction, Register};
///
/// let mut encoder = Encoder::try_new(64)?;
/// let push = Instruction::with1(Code::Push_r64, Register::RBP)?;
/// let mov = Instruction::with2(Code::Mov_rm64_r64, Register::RBP, Register::RSP)?;
/// let mut ip = 0x1000;
/// for instruction in [push, mov] {
///     ip += encoder.encode(&instruction, ip)? as u64;
/// }
/// assert_eq!(encoder.take_buffer(), b"\x55\x48\x89\xE5");
/// # Ok::<(), feddurzai::Error>(())
/// ```
#[cfg(feature = "alloc")]
#[derive(Clone, Debug)]
pub struct Encoder {
    bitness: u32,
    buffer: Vec<u8>,
    last: EncodedBytes,
}

#[cfg(feature = "alloc")]
impl Encoder {
    /// An encoder. With another bitness than 16, 32 and 64, [`Encoder::encode`] returns [`Error::BadMode`].
    #[must_use]
    pub fn new(bitness: u32) -> Encoder {
        Encoder { bitness, buffer: Vec::new(), last: EncodedBytes::NONE }
    }

    /// An encoder.
    ///
    /// # Errors
    ///
    /// [`Error::BadMode`] if `bitness` is not 16, 32 or 64, and [`Error::Interface`].
    pub fn try_new(bitness: u32) -> Result<Encoder, Error> {
        checked_mode(bitness)?;
        Library::get()?;
        Ok(Encoder::new(bitness))
    }

    /// Appends the bytes of an instruction at the address `ip` to the buffer, and returns their number.
    ///
    /// # Errors
    ///
    /// [`Error::BadMode`], [`Error::BadInstruction`] or [`Error::NoEncoding`]; then the buffer is unchanged. Some decoded
    /// instructions have no encoding: the shortest form of a branch with needless prefixes may no longer reach.
    #[inline]
    pub fn encode(&mut self, instruction: &Instruction, ip: u64) -> Result<usize, Error> {
        self.last = instruction.encoded(self.bitness, ip)?;
        let (start, len) = (self.buffer.len(), self.last.len());
        self.buffer.extend_from_slice(self.last.window());
        self.buffer.truncate(start + len);
        Ok(len)
    }

    /// Appends a byte to the buffer.
    pub fn write_u8(&mut self, value: u8) {
        self.buffer.push(value);
    }

    /// Returns the buffer, and continues with an empty one.
    #[must_use]
    pub fn take_buffer(&mut self) -> Vec<u8> {
        core::mem::take(&mut self.buffer)
    }

    /// Replaces the buffer.
    pub fn set_buffer(&mut self, buffer: Vec<u8>) {
        self.buffer = buffer;
    }

    /// The mode.
    #[must_use]
    pub const fn bitness(&self) -> u32 {
        self.bitness
    }

    /// The parts of the instruction that was encoded last.
    #[must_use]
    pub fn get_constant_offsets(&self) -> ConstantOffsets {
        ConstantOffsets::of(self.bitness, &self.last).unwrap_or_default()
    }
}

/// Returns the bytes that an Intel text stands for at an address.
///
/// The text must be exactly as [`IntelFormatter`](crate::IntelFormatter) writes it, with the same spaces and sizes:
/// `push 5` and `jz` are refused. If several instructions have the text, the bytes are those of the one with the
/// shortest encoding.
///
/// # Errors
///
/// [`Error::BadMode`] or [`Error::NoText`].
///
/// ```
/// use feddurzai::assemble;
///
/// assert_eq!(assemble(64, 0x1000, "je 0x1010")?[..], [0x74, 0x0E]);
/// # Ok::<(), feddurzai::Error>(())
/// ```
pub fn assemble(bitness: u32, ip: u64, text: &str) -> Result<EncodedBytes, Error> {
    let library = Library::get()?;
    EncodedBytes::filled(|out| library.assemble(bitness, ip, text, out))
}

/// Returns the instruction whose bytes [`assemble`] returns.
///
/// # Errors
///
/// [`Error::BadMode`] or [`Error::NoText`].
///
/// ```
/// use feddurzai::{read_intel, Register};
///
/// let mov = read_intel(64, 0x1000, "mov qword [rsp+0x10], rbx")?;
/// assert_eq!((mov.memory_base(), mov.bytes()), (Register::RSP, &b"\x48\x89\x5C\x24\x10"[..]));
/// # Ok::<(), feddurzai::Error>(())
/// ```
pub fn read_intel(bitness: u32, ip: u64, text: &str) -> Result<Instruction, Error> {
    let library = Library::get()?;
    let mut instruction = Instruction { ip: ip & mask_of(bitness), ..Instruction::default() };
    taken(library.read_intel(bitness, ip, text, &mut instruction.raw))?;
    taken(library.encode(bitness, ip, &instruction.raw, &mut instruction.bytes))?;
    instruction.mode = checked_mode(bitness)?;
    Ok(instruction)
}

/// The form of a jump or a call, for [`jump`].
///
/// ```
/// use feddurzai::{jump, Jump};
///
/// assert_eq!(jump(64, 0x1000, 0x1010, Jump::Short)?[..], [0xEB, 0x0E]);
/// # Ok::<(), feddurzai::Error>(())
/// ```
#[derive(Clone, Copy, Debug, PartialEq, Eq, Hash)]
#[non_exhaustive]
pub enum Jump {
    /// JMP, 2 bytes: at most 127 bytes forward or 128 back from their end.
    Short = 1,
    /// JMP, 5 bytes (3 in 16-bit code): in 64-bit code at most 2 gigabytes away.
    Near = 2,
    /// 64-bit code, 14 bytes: `jmp [rip]`, and the target in the 8 bytes that follow.
    Far = 3,
    /// CALL, 5 bytes (3 in 16-bit code).
    CallNear = 4,
    /// 64-bit code, 16 bytes: `call [rip+2]`, a jump over 8 bytes, and the target in these.
    CallFar = 5,
}

/// The code of a jump, at most 16 bytes, as a slice.
///
/// ```
/// use feddurzai::{jump, Jump};
///
/// let code = jump(64, 0x1000, 0x7fff_0000_0000, Jump::Far)?;
/// assert_eq!(code[..6], [0xFF, 0x25, 0, 0, 0, 0]);
/// # Ok::<(), feddurzai::Error>(())
/// ```
#[derive(Clone, Copy, Debug, PartialEq, Eq, Hash)]
pub struct JumpBytes {
    bytes: [u8; MAX_JUMP],
    len: u8,
}

impl core::ops::Deref for JumpBytes {
    type Target = [u8];

    fn deref(&self) -> &[u8] {
        self.bytes.get(..usize::from(self.len)).unwrap_or(&self.bytes)
    }
}

/// Returns the code of a jump to an address, or of a call of it. The code changes no register but, for a call, the stack
/// pointer.
///
/// # Errors
///
/// [`Error::BadMode`], or [`Error::NoEncoding`]: with [`Cause::Target`](crate::Cause::Target) if the target is out of
/// reach, and with [`Cause::Row`](crate::Cause::Row) for a far form outside 64-bit mode.
///
/// ```
/// use feddurzai::{jump, Jump};
///
/// assert_eq!(jump(64, 0x1000, 0x1010, Jump::Near)?[..], [0xE9, 0x0B, 0, 0, 0]);
/// # Ok::<(), feddurzai::Error>(())
/// ```
pub fn jump(bitness: u32, at: u64, target: u64, form: Jump) -> Result<JumpBytes, Error> {
    let mut code = JumpBytes { bytes: [0; MAX_JUMP], len: 0 };
    code.len = taken(Library::get()?.jump(bitness, at, target, form as u32, &mut code.bytes))? as u8;
    Ok(code)
}

/// The longest instruction, in bytes.
pub const MAX_INSTRUCTION_LENGTH: usize = MAX_LEN;
