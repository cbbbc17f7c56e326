//! Operands of instructions.

use crate::register::Register;
use crate::sys;

/// The kind of an operand.
///
/// ```
/// use feddurzai::{Decoder, DecoderOptions, OpKind};
///
/// // 83 C0 05: add eax, 0x5
/// let add = Decoder::new(64, b"\x83\xC0\x05", DecoderOptions::NONE).decode();
/// assert_eq!([add.op_kind(0), add.op_kind(1), add.op_kind(2)], [OpKind::Register, OpKind::Immediate, OpKind::None]);
/// ```
#[derive(Clone, Copy, Debug, PartialEq, Eq, Hash, PartialOrd, Ord)]
#[non_exhaustive]
pub enum OpKind {
    /// No operand: the instruction has fewer.
    None,
    /// A register.
    Register,
    /// Memory.
    Memory,
    /// An immediate.
    Immediate,
    /// The target of a near branch.
    NearBranch,
    /// A far pointer: the target of a far branch.
    FarBranch,
}

impl OpKind {
    /// The kind of a number of `feddurzai.h`.
    #[inline]
    pub(crate) fn of(kind: u8) -> OpKind {
        match kind {
            1 => OpKind::Register,
            2 => OpKind::Memory,
            3 => OpKind::Immediate,
            4 => OpKind::NearBranch,
            5 => OpKind::FarBranch,
            _ => OpKind::None,
        }
    }
}

/// An operand.
///
/// ```
/// use feddurzai::{Decoder, DecoderOptions, Operand, Register};
///
/// // 83 C0 05: add eax, 0x5
/// let add = Decoder::new(64, b"\x83\xC0\x05", DecoderOptions::NONE).decode();
/// assert!(add.operands().eq([Operand::Register(Register::EAX), Operand::Immediate(5)]));
/// ```
#[derive(Clone, Copy, Debug, PartialEq, Eq, Hash)]
#[non_exhaustive]
pub enum Operand {
    /// A register.
    Register(Register),
    /// Memory.
    Memory(MemoryOperand),
    /// An immediate. One that is sign-extended is truncated to the operand size.
    Immediate(u64),
    /// The target of a near branch: an absolute address.
    NearBranch(u64),
    /// A far pointer.
    FarBranch {
        /// The selector.
        selector: u16,
        /// The offset.
        offset: u32,
    },
}

/// A memory operand: `segment:[base + index * scale + displacement]`.
///
/// With the base RIP or EIP, the displacement is the absolute address of the operand.
///
/// ```
/// use feddurzai::{Code, Instruction, MemoryOperand, Register};
///
/// let memory = MemoryOperand::with_base_index_scale(Register::RBX, Register::RCX, 4);
/// let lea = Instruction::with2(Code::Lea_r64_m, Register::RAX, memory)?;
/// assert_eq!(lea.to_string(), "lea rax, [rbx+rcx*4]");
/// # Ok::<(), feddurzai::Error>(())
/// ```
#[derive(Clone, Copy, Debug, PartialEq, Eq, Hash)]
pub struct MemoryOperand {
    /// The segment register of a prefix, or [`Register::None`].
    pub segment_prefix: Register,
    /// The base, or [`Register::None`].
    pub base: Register,
    /// The index, or [`Register::None`].
    pub index: Register,
    /// The scale of the index: 1, 2, 4 or 8; 1 without an index.
    pub scale: u32,
    /// The displacement.
    pub displacement: i64,
    /// The size of the displacement in bytes: 0 for none, 2, 4 or 8, and 1 for the shortest that holds it.
    pub displ_size: u32,
}

impl MemoryOperand {
    /// Memory by all of its parts.
    ///
    /// ```
    /// use feddurzai::{Code, Instruction, MemoryOperand, Register};
    ///
    /// let memory = MemoryOperand::new(Register::RBP, Register::RAX, 8, -0x10, 1, Register::FS);
    /// let mov = Instruction::with2(Code::Mov_r32_rm32, Register::ECX, memory)?;
    /// assert_eq!(mov.to_string(), "mov ecx, dword fs:[rbp+rax*8-0x10]");
    /// # Ok::<(), feddurzai::Error>(())
    /// ```
    #[must_use]
    pub const fn new(
        base: Register,
        index: Register,
        scale: u32,
        displacement: i64,
        displ_size: u32,
        segment_prefix: Register,
    ) -> MemoryOperand {
        MemoryOperand { segment_prefix, base, index, scale, displacement, displ_size }
    }

    /// `[base]`.
    #[must_use]
    pub const fn with_base(base: Register) -> MemoryOperand {
        MemoryOperand::new(base, Register::None, 1, 0, 0, Register::None)
    }

    /// `[base + displacement]`. With the base RIP or EIP, the displacement is the absolute address.
    #[must_use]
    pub const fn with_base_displ(base: Register, displacement: i64) -> MemoryOperand {
        MemoryOperand::new(base, Register::None, 1, displacement, 1, Register::None)
    }

    /// `[base + index]`.
    #[must_use]
    pub const fn with_base_index(base: Register, index: Register) -> MemoryOperand {
        MemoryOperand::new(base, index, 1, 0, 0, Register::None)
    }

    /// `[base + index * scale]`.
    #[must_use]
    pub const fn with_base_index_scale(base: Register, index: Register, scale: u32) -> MemoryOperand {
        MemoryOperand::new(base, index, scale, 0, 0, Register::None)
    }

    /// `[base + index * scale + displacement]`, with the size of the displacement in bytes.
    #[must_use]
    pub const fn with_base_index_scale_displ_size(
        base: Register,
        index: Register,
        scale: u32,
        displacement: i64,
        displ_size: u32,
    ) -> MemoryOperand {
        MemoryOperand::new(base, index, scale, displacement, displ_size, Register::None)
    }

    /// `[index * scale + displacement]`, with the size of the displacement in bytes.
    #[must_use]
    pub const fn with_index_scale_displ_size(
        index: Register,
        scale: u32,
        displacement: i64,
        displ_size: u32,
    ) -> MemoryOperand {
        MemoryOperand::new(Register::None, index, scale, displacement, displ_size, Register::None)
    }

    /// `[displacement]`, with the size of the displacement in bytes.
    #[must_use]
    pub const fn with_displ(displacement: u64, displ_size: u32) -> MemoryOperand {
        MemoryOperand::new(Register::None, Register::None, 1, displacement as i64, displ_size, Register::None)
    }

    /// The address size that its registers determine, in bits, or 0 if they determine none.
    pub(crate) fn address_bits(&self) -> u8 {
        let bits_of = |register: Register| match register.size() {
            _ if !(register.is_gpr() || register.is_ip()) => 0,
            size => size as u8 * 8,
        };
        match bits_of(self.base) {
            0 => bits_of(self.index),
            bits => bits,
        }
    }

    /// The memory operand in a struct of an instruction.
    pub(crate) fn of(instr: &sys::Instr, op: &sys::Operand) -> MemoryOperand {
        let base = Register::of(op.reg_class, op.reg_number);
        let index = Register::of(op.index_class, op.index_number);
        let is_signed = !base.is_ip() && (base != Register::None || index != Register::None);
        let displacement = match instr.asize {
            16 if is_signed => i64::from(op.value as i16),
            32 if is_signed => i64::from(op.value as i32),
            _ => op.value as i64,
        };
        MemoryOperand {
            segment_prefix: Register::of_prefix(instr.segment),
            base,
            index,
            scale: u32::from(op.scale),
            displacement,
            displ_size: u32::from(op.disp_bits) / 8,
        }
    }
}

impl From<Register> for Operand {
    fn from(register: Register) -> Operand {
        Operand::Register(register)
    }
}

impl From<MemoryOperand> for Operand {
    fn from(memory: MemoryOperand) -> Operand {
        Operand::Memory(memory)
    }
}

macro_rules! immediates {
    ($($kind:ty)*) => {
        $(
            impl From<$kind> for Operand {
                /// An immediate; a negative one is sign-extended, and cut to the size of the row's immediate.
                fn from(value: $kind) -> Operand {
                    Operand::Immediate(i64::from(value) as u64)
                }
            }
        )*
    };
}

immediates! { i8 u8 i16 u16 i32 u32 i64 }

impl From<u64> for Operand {
    fn from(value: u64) -> Operand {
        Operand::Immediate(value)
    }
}
