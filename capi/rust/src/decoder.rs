//! The decoder.

use crate::error::{Error, Place};
use crate::formatter::FormatterSyntax;
use crate::instruction::{checked_mode, mask_of, Instruction};
use crate::offsets::ConstantOffsets;
use crate::sys::{self, Library, Text, MAX_LEN};
use core::iter::FusedIterator;

/// The options of a [`Decoder`]. There is one table, and so no option.
///
/// ```
/// assert_eq!(feddurzai::DecoderOptions::NONE, feddurzai::DecoderOptions::default());
/// ```
#[derive(Clone, Copy, Debug, Default, PartialEq, Eq, Hash)]
pub struct DecoderOptions(());

impl DecoderOptions {
    /// No options.
    pub const NONE: DecoderOptions = DecoderOptions(());
}

/// What the last call of [`Decoder::decode`] found.
///
/// ```
/// use feddurzai::{Decoder, DecoderError, DecoderOptions};
///
/// let mut decoder = Decoder::new(64, b"\x06\x90\x48", DecoderOptions::NONE);
/// let mut found = [DecoderError::None; 3];
/// for error in &mut found {
///     decoder.decode();
///     *error = decoder.last_error();
/// }
/// assert_eq!(found, [DecoderError::InvalidInstruction, DecoderError::None, DecoderError::NoMoreBytes]);
/// ```
#[derive(Clone, Copy, Debug, PartialEq, Eq, Hash)]
#[non_exhaustive]
pub enum DecoderError {
    /// An instruction.
    None,
    /// No instruction begins with the bytes, whatever follows them.
    InvalidInstruction,
    /// The bytes end before the instruction does.
    NoMoreBytes,
    /// The decoder was made with an invalid bitness, or the linked library has another interface than this crate:
    /// [`Decoder::try_new`] says which.
    Unusable,
}

/// Decodes the instructions of some bytes, one after another.
///
/// Where no instruction begins, [`Decoder::decode`] returns an invalid instruction of one byte, and continues after that
/// byte.
///
/// ```
/// use feddurzai::{Decoder, DecoderOptions};
///
/// let code = b"\x48\x83\xEC\x08\x06\xC3";
/// let mut decoder = Decoder::with_ip(64, code, 0x1000, DecoderOptions::NONE);
/// let lines: Vec<_> = decoder.iter().map(|instruction| format!("{:x} {}", instruction.ip(), instruction)).collect();
/// assert_eq!(lines, ["1000 sub rsp, 0x8", "1004 (bad)", "1005 ret"]);
/// ```
#[derive(Clone, Debug)]
pub struct Decoder<'a> {
    data: &'a [u8],
    position: usize,
    ip: u64,
    /// The addresses of the mode.
    mask: u64,
    library: Option<Library>,
    mode: u8,
    last_error: DecoderError,
}

impl<'a> Decoder<'a> {
    /// A decoder of bytes whose first has the address 0.
    ///
    /// With another bitness than 16, 32 and 64 it finds no instruction, and [`Decoder::last_error`] is
    /// [`DecoderError::Unusable`]; [`Decoder::try_new`] returns an error instead.
    #[must_use]
    pub fn new(bitness: u32, data: &'a [u8], options: DecoderOptions) -> Decoder<'a> {
        Decoder::with_ip(bitness, data, 0, options)
    }

    /// A decoder of bytes whose first has the address `ip`.
    #[must_use]
    pub fn with_ip(bitness: u32, data: &'a [u8], ip: u64, options: DecoderOptions) -> Decoder<'a> {
        Decoder::try_with_ip(bitness, data, ip, options).unwrap_or(Decoder {
            data,
            position: 0,
            ip,
            mask: u64::MAX,
            library: None,
            mode: 64,
            last_error: DecoderError::Unusable,
        })
    }

    /// A decoder of bytes whose first has the address 0.
    ///
    /// # Errors
    ///
    /// [`Error::BadMode`] if `bitness` is not 16, 32 or 64, and [`Error::Interface`].
    ///
    /// ```
    /// use feddurzai::{Decoder, DecoderOptions, Error};
    ///
    /// assert_eq!(Decoder::try_new(17, b"", DecoderOptions::NONE).err(), Some(Error::BadMode));
    /// ```
    pub fn try_new(bitness: u32, data: &'a [u8], options: DecoderOptions) -> Result<Decoder<'a>, Error> {
        Decoder::try_with_ip(bitness, data, 0, options)
    }

    /// A decoder of bytes whose first has the address `ip`.
    ///
    /// # Errors
    ///
    /// Those of [`Decoder::try_new`].
    pub fn try_with_ip(bitness: u32, data: &'a [u8], ip: u64, _: DecoderOptions) -> Result<Decoder<'a>, Error> {
        let (mode, library) = (checked_mode(bitness)?, Library::get()?);
        let mask = mask_of(bitness);
        Ok(Decoder { data, position: 0, ip, mask, library: Some(library), mode, last_error: DecoderError::None })
    }

    /// The mode: 16, 32 or 64.
    #[must_use]
    pub const fn bitness(&self) -> u32 {
        self.mode as u32
    }

    /// The address of the next instruction.
    #[must_use]
    pub fn ip(&self) -> u64 {
        self.ip & self.mask
    }

    /// Sets the address of the next instruction. The position stays.
    pub fn set_ip(&mut self, ip: u64) {
        self.ip = ip;
    }

    /// The offset of the next instruction in the bytes.
    #[must_use]
    pub const fn position(&self) -> usize {
        self.position
    }

    /// Sets the offset of the next instruction in the bytes. The address stays.
    ///
    /// # Errors
    ///
    /// [`Error::TooShort`] if it is after the end of the bytes.
    pub fn set_position(&mut self, position: usize) -> Result<(), Error> {
        if position > self.data.len() {
            return Err(Error::TooShort { at: position as u64 });
        }
        self.position = position;
        Ok(())
    }

    /// The number of bytes: the largest position.
    #[must_use]
    pub const fn max_position(&self) -> usize {
        self.data.len()
    }

    /// Whether there are more bytes.
    #[must_use]
    #[inline]
    pub const fn can_decode(&self) -> bool {
        self.position < self.data.len()
    }

    /// What the last call of [`Decoder::decode`] found.
    #[must_use]
    pub const fn last_error(&self) -> DecoderError {
        self.last_error
    }

    /// Decodes the next instruction.
    #[must_use]
    #[inline]
    pub fn decode(&mut self) -> Instruction {
        let mut instruction = Instruction::default();
        self.decode_out(&mut instruction);
        instruction
    }

    /// Decodes the next instruction into `instruction`, which is faster than [`Decoder::decode`].
    ///
    /// ```
    /// use feddurzai::{Decoder, DecoderOptions, Instruction};
    ///
    /// let mut decoder = Decoder::new(64, b"\x90\xC3", DecoderOptions::NONE);
    /// let (mut instruction, mut count) = (Instruction::default(), 0);
    /// while decoder.can_decode() {
    ///     decoder.decode_out(&mut instruction);
    ///     count += 1;
    /// }
    /// assert_eq!((count, instruction.to_string().as_str()), (2, "ret"));
    /// ```
    #[inline]
    pub fn decode_out(&mut self, instruction: &mut Instruction) {
        let rest = self.data.get(self.position..).unwrap_or(&[]);
        let status = match self.library {
            Some(library) => library.decode(self.bitness(), self.ip, rest, &mut instruction.raw),
            None => -1,
        };
        if status > 0 {
            self.place(instruction, rest);
            self.last_error = DecoderError::None;
        } else {
            self.refuse(status, instruction, rest);
        }
    }

    /// Decodes the next instruction and writes its text, by one call of the library that is faster than two. The text of an
    /// invalid instruction is `(bad)`.
    ///
    /// ```
    /// use feddurzai::{Decoder, DecoderOptions, FormatterSyntax, Instruction, Text};
    ///
    /// let mut decoder = Decoder::with_ip(64, b"\x74\x10", 0x1000, DecoderOptions::NONE);
    /// let (mut instruction, mut text) = (Instruction::default(), Text::new());
    /// decoder.decode_line(FormatterSyntax::Intel, &mut instruction, &mut text);
    /// assert_eq!((instruction.len(), text.as_str()), (2, "je 0x1012"));
    /// ```
    #[inline]
    pub fn decode_line(&mut self, syntax: FormatterSyntax, instruction: &mut Instruction, text: &mut Text) {
        let rest = self.data.get(self.position..).unwrap_or(&[]);
        let status = match self.library {
            Some(library) => library.line(self.bitness(), syntax as u32, self.ip, rest, &mut instruction.raw, text),
            None => -1,
        };
        if status > 0 {
            self.place(instruction, rest);
            self.last_error = DecoderError::None;
        } else {
            self.refuse(status, instruction, rest);
            text.set_bad();
        }
    }

    /// Decodes several instructions by one call of the library, and returns how many. It is fewer than the length of
    /// `instructions` if the bytes end.
    ///
    /// ```
    /// use feddurzai::{Decoder, DecoderOptions, Instruction};
    ///
    /// let mut decoder = Decoder::new(64, b"\x90\x06\xC3", DecoderOptions::NONE);
    /// let mut found = [Instruction::default(); 8];
    /// assert_eq!(decoder.decode_many(&mut found), 3);
    /// assert!(found[1].is_invalid() && found[2].to_string() == "ret");
    /// ```
    pub fn decode_many(&mut self, instructions: &mut [Instruction]) -> usize {
        let mut done = 0;
        for chunk in instructions.chunks_mut(16) {
            let (mut raw, mut count) = ([sys::Instr::default(); 16], 0);
            let rest = self.data.get(self.position..).unwrap_or(&[]);
            let wanted = raw.get_mut(..chunk.len()).unwrap_or(&mut []);
            match self.library {
                Some(library) => library.decode_many(self.bitness(), self.ip, rest, wanted, &mut count),
                None => return done,
            };
            for (instruction, found) in chunk.iter_mut().zip(raw.iter().take(count)) {
                instruction.raw = *found;
                let rest = self.data.get(self.position..).unwrap_or(&[]);
                self.place(instruction, rest);
                self.last_error = match found.code {
                    TOO_SHORT => DecoderError::NoMoreBytes,
                    INVALID => DecoderError::InvalidInstruction,
                    _ => DecoderError::None,
                };
                done += 1;
            }
            if count < chunk.len() {
                break;
            }
        }
        done
    }

    /// Gives an instruction its address and its bytes, and goes to the next one.
    #[inline]
    fn place(&mut self, instruction: &mut Instruction, rest: &[u8]) {
        instruction.ip = self.ip & self.mask;
        instruction.mode = self.mode;
        // a copy of a fixed size is two moves
        match rest.get(..MAX_LEN).map(<[u8; MAX_LEN]>::try_from) {
            Some(Ok(window)) => instruction.bytes = window,
            _ => keep_last(&mut instruction.bytes, rest),
        }
        self.position += instruction.len();
        self.ip = self.ip.wrapping_add(instruction.len() as u64);
    }

    #[cold]
    fn refuse(&mut self, status: i32, instruction: &mut Instruction, rest: &[u8]) {
        *instruction = Instruction::default();
        instruction.raw.len = u8::from(!rest.is_empty());
        self.last_error = match Error::of(status, Place::default()) {
            Error::Invalid { .. } => DecoderError::InvalidInstruction,
            Error::TooShort { .. } => DecoderError::NoMoreBytes,
            _ => DecoderError::Unusable,
        };
        if self.last_error == DecoderError::NoMoreBytes {
            instruction.raw.code = TOO_SHORT;
        }
        self.place(instruction, rest);
    }

    /// Decodes one instruction after another until the bytes end.
    pub fn iter<'b>(&'b mut self) -> DecoderIter<'a, 'b> {
        DecoderIter { decoder: self }
    }

    /// The parts of an instruction that was decoded: where its displacement and its immediates are in its bytes.
    #[must_use]
    pub fn get_constant_offsets(&self, instruction: &Instruction) -> ConstantOffsets {
        ConstantOffsets::of(instruction.bitness(), instruction.bytes()).unwrap_or_default()
    }
}

/// Copies the last bytes of some code, which are fewer than an instruction may have.
#[cold]
#[inline(never)]
fn keep_last(bytes: &mut [u8; MAX_LEN], rest: &[u8]) {
    bytes.iter_mut().zip(rest).for_each(|(to, from)| *to = *from);
}

/// The codes of items at which no instruction begins, in `feddurzai.h`.
const TOO_SHORT: u16 = 0xFFFE;
const INVALID: u16 = 0xFFFF;

/// The instructions of a decoder, which [`Decoder::iter`] returns.
///
/// ```
/// use feddurzai::{Decoder, DecoderOptions};
///
/// let mut decoder = Decoder::new(64, b"\x90\xC3", DecoderOptions::NONE);
/// assert_eq!(decoder.iter().map(|instruction| instruction.len()).sum::<usize>(), 2);
/// ```
#[derive(Debug)]
pub struct DecoderIter<'a, 'b> {
    decoder: &'b mut Decoder<'a>,
}

impl Iterator for DecoderIter<'_, '_> {
    type Item = Instruction;

    #[inline]
    fn next(&mut self) -> Option<Instruction> {
        if self.decoder.can_decode() {
            Some(self.decoder.decode())
        } else {
            None
        }
    }
}

impl FusedIterator for DecoderIter<'_, '_> {}

/// The instructions of a decoder, by value.
///
/// ```
/// use feddurzai::{Decoder, DecoderOptions};
///
/// for instruction in Decoder::new(64, b"\x90", DecoderOptions::NONE) {
///     assert_eq!(instruction.to_string(), "nop");
/// }
/// ```
#[derive(Debug)]
pub struct DecoderIntoIter<'a> {
    decoder: Decoder<'a>,
}

impl Iterator for DecoderIntoIter<'_> {
    type Item = Instruction;

    #[inline]
    fn next(&mut self) -> Option<Instruction> {
        self.decoder.iter().next()
    }
}

impl FusedIterator for DecoderIntoIter<'_> {}

impl<'a> IntoIterator for Decoder<'a> {
    type Item = Instruction;
    type IntoIter = DecoderIntoIter<'a>;

    fn into_iter(self) -> DecoderIntoIter<'a> {
        DecoderIntoIter { decoder: self }
    }
}

impl<'a, 'b> IntoIterator for &'b mut Decoder<'a> {
    type Item = Instruction;
    type IntoIter = DecoderIter<'a, 'b>;

    fn into_iter(self) -> DecoderIter<'a, 'b> {
        self.iter()
    }
}
