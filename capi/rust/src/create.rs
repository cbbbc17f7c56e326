//! Constructed instructions.

use crate::code::Code;
use crate::error::{taken, Cause, Error};
use crate::instruction::Instruction;
use crate::operand::{MemoryOperand, Operand};
use crate::sys::{self, Library, MAX_LEN};

/// Lets the encoder choose the shortest displacement.
const SHORTEST: u8 = 255;

/// Constructors. Each checks that the row of the code takes the operands.
///
/// A near target that is out of reach is reported when the instruction is encoded. Its mode is the widest in which it can be
/// encoded; [`Instruction::set_bitness`] changes it.
impl Instruction {
    /// An instruction without operands.
    ///
    /// # Errors
    ///
    /// [`Error::NoEncoding`] if the row takes other operands, and [`Error::BadCode`] if no row has the code.
    ///
    /// ```
    /// use feddurzai::{Code, Instruction};
    ///
    /// assert_eq!(Instruction::with(Code::Retnq)?.encoded(64, 0)?[..], [0xC3]);
    /// assert!(Instruction::with(Code::Push_r64).is_err());
    /// # Ok::<(), feddurzai::Error>(())
    /// ```
    pub fn with(code: Code) -> Result<Instruction, Error> {
        made(code, &[])
    }

    /// An instruction with one operand.
    ///
    /// # Errors
    ///
    /// Those of [`Instruction::with`].
    ///
    /// ```
    /// use feddurzai::{Code, Instruction, Register};
    ///
    /// assert_eq!(Instruction::with1(Code::Push_r64, Register::R8)?.encoded(64, 0)?[..], [0x41, 0x50]);
    /// # Ok::<(), feddurzai::Error>(())
    /// ```
    pub fn with1(code: Code, op0: impl Into<Operand>) -> Result<Instruction, Error> {
        made(code, &[op0.into()])
    }

    /// An instruction with two operands.
    ///
    /// # Errors
    ///
    /// Those of [`Instruction::with`].
    ///
    /// ```
    /// use feddurzai::{Code, Instruction, MemoryOperand, Register};
    ///
    /// let add = Instruction::with2(Code::Add_rm32_imm8, Register::EAX, -1)?;
    /// assert_eq!(add.encoded(64, 0)?[..], [0x83, 0xC0, 0xFF]);
    /// let memory = MemoryOperand::with_base_displ(Register::RSP, 0x10);
    /// let mov = Instruction::with2(Code::Mov_rm64_r64, memory, Register::RBX)?;
    /// assert_eq!(mov.encoded(64, 0)?[..], [0x48, 0x89, 0x5C, 0x24, 0x10]);
    /// # Ok::<(), feddurzai::Error>(())
    /// ```
    pub fn with2(code: Code, op0: impl Into<Operand>, op1: impl Into<Operand>) -> Result<Instruction, Error> {
        made(code, &[op0.into(), op1.into()])
    }

    /// An instruction with three operands.
    ///
    /// # Errors
    ///
    /// Those of [`Instruction::with`].
    ///
    /// ```
    /// use feddurzai::{Code, Instruction, Register};
    ///
    /// let imul = Instruction::with3(Code::Imul_r32_rm32_imm8, Register::EAX, Register::ECX, 3)?;
    /// assert_eq!(imul.encoded(64, 0)?[..], [0x6B, 0xC1, 0x03]);
    /// # Ok::<(), feddurzai::Error>(())
    /// ```
    pub fn with3(
        code: Code,
        op0: impl Into<Operand>,
        op1: impl Into<Operand>,
        op2: impl Into<Operand>,
    ) -> Result<Instruction, Error> {
        made(code, &[op0.into(), op1.into(), op2.into()])
    }

    /// An instruction with four operands.
    ///
    /// # Errors
    ///
    /// Those of [`Instruction::with`].
    ///
    /// ```
    /// use feddurzai::{Code, Instruction, Register};
    ///
    /// let (x0, x1) = (Register::XMM0, Register::XMM1);
    /// let blend = Instruction::with4(Code::VEX_Vblendps_xmm_xmm_xmmm128_imm8, x0, x1, x1, 3)?;
    /// assert_eq!(blend.encoded(64, 0)?[..], [0xC4, 0xE3, 0x71, 0x0C, 0xC1, 0x03]);
    /// # Ok::<(), feddurzai::Error>(())
    /// ```
    pub fn with4(
        code: Code,
        op0: impl Into<Operand>,
        op1: impl Into<Operand>,
        op2: impl Into<Operand>,
        op3: impl Into<Operand>,
    ) -> Result<Instruction, Error> {
        made(code, &[op0.into(), op1.into(), op2.into(), op3.into()])
    }

    /// An instruction with some operands.
    ///
    /// # Errors
    ///
    /// Those of [`Instruction::with`], and [`Error::BadForm`] if there are more than four.
    ///
    /// ```
    /// use feddurzai::{Code, Instruction, Operand, Register};
    ///
    /// let operands = [Operand::from(Register::EAX), Operand::from(5)];
    /// assert_eq!(Instruction::with_operands(Code::Mov_r32_imm32, &operands)?.to_string(), "mov eax, 0x5");
    /// # Ok::<(), feddurzai::Error>(())
    /// ```
    pub fn with_operands(code: Code, operands: &[Operand]) -> Result<Instruction, Error> {
        made(code, operands)
    }

    /// A near branch to an absolute address.
    ///
    /// # Errors
    ///
    /// Those of [`Instruction::with`].
    ///
    /// ```
    /// use feddurzai::{Code, Instruction};
    ///
    /// let call = Instruction::with_branch(Code::Call_rel32_64, 0x2000)?;
    /// assert_eq!(call.to_string(), "call 0x2000");
    /// # Ok::<(), feddurzai::Error>(())
    /// ```
    pub fn with_branch(code: Code, target: u64) -> Result<Instruction, Error> {
        made(code, &[Operand::NearBranch(target)])
    }

    /// A far branch to a selector and an offset.
    ///
    /// # Errors
    ///
    /// Those of [`Instruction::with`].
    ///
    /// ```
    /// use feddurzai::{Code, Instruction};
    ///
    /// let jmp = Instruction::with_far_branch(Code::Jmp_ptr1632, 0x23, 0x1234_5678)?;
    /// assert_eq!(jmp.encoded(32, 0)?[..], [0xEA, 0x78, 0x56, 0x34, 0x12, 0x23, 0x00]);
    /// # Ok::<(), feddurzai::Error>(())
    /// ```
    pub fn with_far_branch(code: Code, selector: u16, offset: u32) -> Result<Instruction, Error> {
        made(code, &[Operand::FarBranch { selector, offset }])
    }
}

/// The struct of an operand.
fn op_of(operand: &Operand) -> sys::Operand {
    let mut op = sys::Operand::default();
    match *operand {
        Operand::Register(register) => {
            op.kind = 1;
            op.reg_class = register.raw_class();
            op.reg_number = register.raw_number();
        }
        Operand::Memory(memory) => set_memory(&mut op, &memory),
        Operand::Immediate(value) => {
            op.kind = 3;
            op.value = value;
        }
        Operand::NearBranch(target) => {
            op.kind = 4;
            op.value = target;
        }
        Operand::FarBranch { selector, offset } => {
            op.kind = 5;
            op.selector = selector;
            op.offset = offset;
        }
    }
    op
}

fn set_memory(op: &mut sys::Operand, memory: &MemoryOperand) {
    op.kind = 2;
    op.reg_class = memory.base.raw_class();
    op.reg_number = memory.base.raw_number();
    op.index_class = memory.index.raw_class();
    op.index_number = memory.index.raw_number();
    op.scale = u8::try_from(memory.scale).unwrap_or(0);
    op.value = memory.displacement as u64;
    op.disp_bits = match memory.displ_size {
        // some bases have no form without a displacement
        0 if memory.displacement == 0 => SHORTEST,
        1 => SHORTEST,
        size @ (0 | 2 | 4 | 8) => size as u8 * 8,
        // no address has this width: the encoder refuses it
        _ => 1,
    };
}

/// The condition that the encoder finds violated, if any.
fn cause_of(library: Library, bits: u8, raw: &sys::Instr) -> Option<Error> {
    taken(library.encoded_len(u32::from(bits), 0, raw)).err()
}

fn fails(found: Option<Error>, wanted: Cause) -> bool {
    matches!(found, Some(Error::NoEncoding { cause, .. }) if cause == wanted)
}

/// Makes an instruction, and checks it. Its mode is the widest in which it can be encoded.
fn made(code: Code, operands: &[Operand]) -> Result<Instruction, Error> {
    let library = Library::get()?;
    if code == Code::INVALID {
        return Err(Error::BadCode);
    }
    if operands.len() > 4 {
        return Err(Error::BadForm);
    }
    let mut raw = sys::Instr { code: code.value(), ..sys::Instr::default() };
    for (op, operand) in raw.ops.iter_mut().zip(operands) {
        *op = op_of(operand);
        if let Operand::Memory(memory) = operand {
            raw.asize = memory.address_bits();
            raw.segment = memory.segment_prefix.prefix();
        }
    }
    let mut refused = None;
    for bits in [64, 32, 16] {
        match made_in(library, bits, raw) {
            Ok(raw) => return Ok(Instruction { raw, ip: 0, bytes: [0; MAX_LEN], mode: bits }),
            Err(found) if fails(Some(found), Cause::Row) => {}
            Err(found) => refused = refused.or(Some(found)),
        }
    }
    Err(refused.unwrap_or(Error::NoEncoding { cause: Cause::Row, operand: None }))
}

/// Completes the struct of an instruction in a mode, and checks it.
fn made_in(library: Library, bits: u8, mut raw: sys::Instr) -> Result<sys::Instr, Error> {
    set_address_size(library, bits, &mut raw);
    set_immediates(library, bits, &mut raw);
    set_displacement(library, bits, &mut raw);
    match cause_of(library, bits, &raw) {
        // a target is checked where the instruction is encoded, when its address is known
        Some(found) if !fails(Some(found), Cause::Target) => Err(found),
        _ => Ok(raw),
    }
}

/// Sets the address size, if no register of the memory operand determines it, and cuts the displacement to it.
fn set_address_size(library: Library, bits: u8, raw: &mut sys::Instr) {
    let is_memory = |op: &sys::Operand| op.kind == 2;
    if raw.asize == 0 && (raw.ops.iter().any(is_memory) || fails(cause_of(library, bits, raw), Cause::AddressSize)) {
        raw.asize = bits;
    }
    let mask = crate::instruction::mask_of(u32::from(raw.asize));
    for op in raw.ops.iter_mut().filter(|op| op.kind == 2) {
        op.value &= mask;
        if op.disp_bits == SHORTEST && (op.reg_class == 0 || matches!(op.reg_class, 13 | 14)) {
            // without a general register as its base, an address has but one width
            op.disp_bits = if raw.asize == 16 { 16 } else { 32 };
        }
    }
}

/// Cuts negative immediates to the size of the row's immediate, the widest that the encoder accepts.
fn set_immediates(library: Library, bits: u8, raw: &mut sys::Instr) {
    for at in 0..raw.ops.len() {
        for width in [64, 32, 16, 8] {
            let mut tried = *raw;
            match tried.ops.get_mut(at) {
                Some(op) if op.kind == 3 && (op.value as i64) < 0 && (op.value as i64) >= -1 << (width - 1) => {
                    op.value &= u64::MAX >> (64 - width);
                }
                _ => break,
            }
            let found = cause_of(library, bits, &tried);
            let is_here =
                matches!(found, Some(Error::NoEncoding { operand: Some(operand), .. }) if operand as usize == at);
            if !(is_here && fails(found, Cause::Immediate)) {
                *raw = tried;
                break;
            }
        }
    }
}

/// Sets the width of a displacement that is the shortest: that of the encoder.
fn set_displacement(library: Library, bits: u8, raw: &mut sys::Instr) {
    if !raw.ops.iter().any(|op| op.kind == 2 && op.disp_bits == SHORTEST) {
        return;
    }
    let (mut bytes, mut decoded) = ([0; MAX_LEN], sys::Instr::default());
    let len = library.encode(u32::from(bits), 0, raw, &mut bytes);
    let encoded = usize::try_from(len).ok().and_then(|len| bytes.get(..len)).unwrap_or(&[]);
    if library.decode(u32::from(bits), 0, encoded, &mut decoded) > 0 {
        for (op, found) in raw.ops.iter_mut().zip(decoded.ops) {
            if op.disp_bits == SHORTEST {
                op.disp_bits = found.disp_bits;
            }
        }
    }
}
