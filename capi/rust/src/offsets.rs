//! The parts of an instruction in its bytes.

use crate::error::{taken, Error};
use crate::sys::{self, Library};

/// A part of an instruction: the offset of its first byte, and its length in bytes, 0 if it is absent.
///
/// ```
/// use feddurzai::{ConstantOffsets, Part};
///
/// // 6A 05: push 0x5
/// assert_eq!(ConstantOffsets::of(64, b"\x6A\x05")?.immediate_of(0), Part { offset: 1, size: 1 });
/// # Ok::<(), feddurzai::Error>(())
/// ```
#[derive(Clone, Copy, Debug, Default, PartialEq, Eq, Hash)]
pub struct Part {
    /// The offset of its first byte. An absent part has the offset at which it would begin.
    pub offset: usize,
    /// Its length in bytes.
    pub size: usize,
}

impl Part {
    fn of(part: sys::Part) -> Part {
        Part { offset: usize::from(part.at), size: usize::from(part.len) }
    }
}

/// The parts of an instruction in the order of its bytes (Intel SDM volume 2, 2.1, figure 2-1).
///
/// ```
/// use feddurzai::ConstantOffsets;
///
/// // 48 C7 43 10 12 34 56 78: mov qword [rbx+0x10], 0x78563412
/// let offsets = ConstantOffsets::of(64, b"\x48\xC7\x43\x10\x12\x34\x56\x78")?;
/// assert_eq!((offsets.displacement_offset(), offsets.displacement_size()), (3, 1));
/// assert_eq!((offsets.immediate_offset(), offsets.immediate_size()), (4, 4));
/// # Ok::<(), feddurzai::Error>(())
/// ```
#[derive(Clone, Copy, Debug, Default, PartialEq, Eq, Hash)]
pub struct ConstantOffsets {
    parts: sys::ByteOffsets,
}

impl ConstantOffsets {
    /// The parts of the instruction at the front of some bytes.
    ///
    /// # Errors
    ///
    /// [`Error::BadMode`], [`Error::Invalid`] or [`Error::TooShort`].
    pub fn of(bitness: u32, bytes: &[u8]) -> Result<ConstantOffsets, Error> {
        let mut parts = sys::ByteOffsets::default();
        taken(Library::get()?.offsets(bitness, bytes, &mut parts))?;
        Ok(ConstantOffsets { parts })
    }

    /// The legacy prefixes and REX.
    #[must_use]
    pub fn prefixes(&self) -> Part {
        Part::of(self.parts.prefixes)
    }

    /// VEX, or the escape bytes 0F, 0F 38 or 0F 3A.
    #[must_use]
    pub fn lead(&self) -> Part {
        Part::of(self.parts.lead)
    }

    /// The opcode byte.
    #[must_use]
    pub fn opcode(&self) -> Part {
        Part::of(self.parts.opcode)
    }

    /// ModRM.
    #[must_use]
    pub fn modrm(&self) -> Part {
        Part::of(self.parts.modrm)
    }

    /// SIB.
    #[must_use]
    pub fn sib(&self) -> Part {
        Part::of(self.parts.sib)
    }

    /// The displacement, or the absolute address of a MOV of the accumulator.
    #[must_use]
    pub fn displacement(&self) -> Part {
        Part::of(self.parts.displacement)
    }

    /// The bytes of an operand, counted from 0: its immediate, the offset of a near branch, a far pointer, or the byte that
    /// names a vector register.
    #[must_use]
    pub fn immediate_of(&self, operand: u32) -> Part {
        let part = usize::try_from(operand).ok().and_then(|at| self.parts.immediates.get(at));
        Part::of(part.copied().unwrap_or_default())
    }

    /// The immediates that are there, in the order of the operands.
    fn immediate(&self, number: usize) -> Part {
        Part::of(self.parts.immediates.iter().filter(|part| part.len != 0).nth(number).copied().unwrap_or_default())
    }

    /// Whether there is a displacement.
    #[must_use]
    pub fn has_displacement(&self) -> bool {
        self.displacement_size() != 0
    }

    /// The offset of the displacement.
    #[must_use]
    pub fn displacement_offset(&self) -> usize {
        self.displacement().offset
    }

    /// The size of the displacement in bytes, 0 without one.
    #[must_use]
    pub fn displacement_size(&self) -> usize {
        self.displacement().size
    }

    /// Whether there is an immediate; the offset of a near branch is one.
    #[must_use]
    pub fn has_immediate(&self) -> bool {
        self.immediate_size() != 0
    }

    /// The offset of the first immediate, 0 without one.
    #[must_use]
    pub fn immediate_offset(&self) -> usize {
        self.immediate(0).offset
    }

    /// The size of the first immediate in bytes, 0 without one.
    #[must_use]
    pub fn immediate_size(&self) -> usize {
        self.immediate(0).size
    }

    /// The offset of the second immediate, 0 without one.
    #[must_use]
    pub fn immediate_offset2(&self) -> usize {
        self.immediate(1).offset
    }

    /// The size of the second immediate in bytes, 0 without one.
    #[must_use]
    pub fn immediate_size2(&self) -> usize {
        self.immediate(1).size
    }
}
