//! Instructions.

use crate::code::Code;
use crate::error::{taken, Error};
use crate::info::FlowControl;
use crate::mnemonic::Mnemonic;
use crate::operand::{MemoryOperand, OpKind, Operand};
use crate::register::Register;
use crate::sys::{self, Library, MAX_LEN};
use core::fmt;
use core::hash::{Hash, Hasher};

/// An instruction: decoded by a [`Decoder`](crate::Decoder), or constructed by [`Instruction::with2`] and others.
///
/// Two are equal if code, operands and prefixes are; addresses and bytes are not compared. A getter of something that the
/// instruction does not have returns 0 or [`Register::None`]. `Display` writes the Intel text, and `(bad)` for an
/// invalid instruction.
///
/// ```
/// use feddurzai::{Code, Decoder, DecoderOptions, Instruction, Mnemonic, Register};
///
/// // 48 89 5C 24 10: mov qword [rsp+0x10], rbx
/// let mov = Decoder::with_ip(64, b"\x48\x89\x5C\x24\x10", 0x1000, DecoderOptions::NONE).decode();
/// assert_eq!((mov.code(), mov.mnemonic()), (Code::Mov_rm64_r64, Mnemonic::Mov));
/// assert_eq!((mov.ip(), mov.len(), mov.next_ip()), (0x1000, 5, 0x1005));
/// assert_eq!((mov.memory_base(), mov.memory_displacement64()), (Register::RSP, 0x10));
/// assert_eq!(mov.op_register(1), Register::RBX);
/// assert_eq!(mov.to_string(), "mov qword [rsp+0x10], rbx");
/// assert!(Instruction::default().is_invalid());
/// ```
#[derive(Clone, Copy)]
pub struct Instruction {
    /// The struct; its length is 0 if the instruction was constructed or changed.
    pub(crate) raw: sys::Instr,
    pub(crate) ip: u64,
    /// The bytes that were decoded, as many as the length says.
    pub(crate) bytes: [u8; MAX_LEN],
    /// The bitness: 16, 32 or 64.
    pub(crate) mode: u8,
}

impl Default for Instruction {
    /// An invalid instruction.
    #[inline]
    fn default() -> Instruction {
        let mut instruction = Instruction { raw: sys::Instr::default(), ip: 0, bytes: [0; MAX_LEN], mode: 64 };
        instruction.raw.code = Code::INVALID.value();
        instruction
    }
}

/// The bytes of an encoded instruction, 1 to 15, as a slice.
///
/// ```
/// use feddurzai::{Code, Instruction, Register};
///
/// let push = Instruction::with1(Code::Push_r64, Register::R8)?;
/// assert_eq!(push.encoded(64, 0)?[..], [0x41, 0x50]);
/// # Ok::<(), feddurzai::Error>(())
/// ```
#[derive(Clone, Copy, Debug, PartialEq, Eq, Hash)]
pub struct EncodedBytes {
    bytes: [u8; MAX_LEN],
    len: u8,
}

impl EncodedBytes {
    /// No bytes.
    #[cfg(feature = "alloc")]
    pub(crate) const NONE: EncodedBytes = EncodedBytes { bytes: [0; MAX_LEN], len: 0 };

    /// The bytes, and what follows them up to the longest instruction: a copy of a fixed size is two moves.
    #[cfg(feature = "alloc")]
    #[inline]
    pub(crate) fn window(&self) -> &[u8; MAX_LEN] {
        &self.bytes
    }

    /// Lets a function of the library write the bytes.
    #[inline]
    pub(crate) fn filled(write: impl FnOnce(&mut [u8]) -> i32) -> Result<EncodedBytes, Error> {
        let mut bytes = [0; MAX_LEN];
        let len = taken(write(&mut bytes))?;
        Ok(EncodedBytes { bytes, len: len as u8 })
    }
}

impl core::ops::Deref for EncodedBytes {
    type Target = [u8];

    fn deref(&self) -> &[u8] {
        self.bytes.get(..usize::from(self.len)).unwrap_or(&self.bytes)
    }
}

impl AsRef<[u8]> for EncodedBytes {
    fn as_ref(&self) -> &[u8] {
        self
    }
}

/// What the instruction is and where it is.
#[allow(clippy::len_without_is_empty)]
impl Instruction {
    /// An invalid instruction.
    #[must_use]
    pub fn new() -> Instruction {
        Instruction::default()
    }

    /// Its code, [`Code::INVALID`] if it is no instruction.
    #[must_use]
    #[inline]
    pub fn code(&self) -> Code {
        Code::of(self.raw.code)
    }

    /// The mnemonic of its row.
    #[must_use]
    #[inline]
    pub fn mnemonic(&self) -> Mnemonic {
        Mnemonic::of_code(self.raw.code)
    }

    /// Whether it is no instruction: the decoder found none there.
    #[must_use]
    #[inline]
    pub fn is_invalid(&self) -> bool {
        self.code() == Code::INVALID
    }

    /// Its address; 0 if it was constructed.
    #[must_use]
    #[inline]
    pub const fn ip(&self) -> u64 {
        self.ip
    }

    /// Sets its address. Its targets are absolute, and stay.
    #[inline]
    pub fn set_ip(&mut self, ip: u64) {
        self.ip = ip;
    }

    /// The address after it, modulo 2^bitness.
    #[must_use]
    #[inline]
    pub fn next_ip(&self) -> u64 {
        self.ip.wrapping_add(self.len() as u64) & mask_of(self.bitness())
    }

    /// The number of its bytes: 1 to 15. 0 if it was constructed or changed.
    #[must_use]
    #[inline]
    pub const fn len(&self) -> usize {
        self.raw.len as usize
    }

    /// The bytes that were decoded; empty if it was constructed or changed.
    #[must_use]
    #[inline]
    pub fn bytes(&self) -> &[u8] {
        self.bytes.get(..self.len()).unwrap_or(&[])
    }

    /// Its mode: 16, 32 or 64. A constructed instruction has the widest mode in which it can be encoded.
    #[must_use]
    #[inline]
    pub const fn bitness(&self) -> u32 {
        self.mode as u32
    }

    /// Sets its mode.
    ///
    /// # Errors
    ///
    /// [`Error::BadMode`] if `bitness` is not 16, 32 or 64.
    pub fn set_bitness(&mut self, bitness: u32) -> Result<(), Error> {
        self.mode = checked_mode(bitness)?;
        Ok(())
    }

    /// Where control goes after it. An invalid instruction is [`FlowControl::Next`].
    ///
    /// ```
    /// use feddurzai::{Code, FlowControl, Instruction};
    ///
    /// let je = Instruction::with_branch(Code::Je_rel8_64, 0x10)?;
    /// assert_eq!(je.flow_control(), FlowControl::ConditionalBranch);
    /// # Ok::<(), feddurzai::Error>(())
    /// ```
    #[must_use]
    pub fn flow_control(&self) -> FlowControl {
        self.about().map_or(FlowControl::Next, |about| FlowControl::of(about.flow))
    }

    /// Its shortest bytes at an address.
    ///
    /// # Errors
    ///
    /// [`Error::BadMode`], [`Error::BadInstruction`] or [`Error::NoEncoding`].
    ///
    /// ```
    /// use feddurzai::{Code, Instruction};
    ///
    /// let jmp = Instruction::with_branch(Code::Jmp_rel32_64, 0x2000)?;
    /// assert_eq!(jmp.encoded(64, 0x1000)?[..], [0xE9, 0xFB, 0x0F, 0x00, 0x00]);
    /// # Ok::<(), feddurzai::Error>(())
    /// ```
    #[inline]
    pub fn encoded(&self, bitness: u32, ip: u64) -> Result<EncodedBytes, Error> {
        let library = Library::get()?;
        EncodedBytes::filled(|out| library.encode(bitness, ip, &self.raw, out))
    }

    /// The number of bytes of [`Instruction::encoded`].
    ///
    /// # Errors
    ///
    /// Those of [`Instruction::encoded`].
    pub fn encoded_len(&self, bitness: u32, ip: u64) -> Result<usize, Error> {
        taken(Library::get()?.encoded_len(bitness, ip, &self.raw))
    }

    /// What `feddurzai_info` reports.
    pub(crate) fn about(&self) -> Result<sys::About, Error> {
        let mut about = sys::About::default();
        taken(Library::get()?.info(&self.raw, &mut about))?;
        Ok(about)
    }

    /// What `feddurzai_effects` reports.
    pub(crate) fn touched(&self) -> Result<sys::Touched, Error> {
        let mut touched = sys::Touched::default();
        taken(Library::get()?.effects(self.bitness(), &self.raw, &mut touched))?;
        Ok(touched)
    }
}

/// Operands.
impl Instruction {
    #[inline]
    fn op(&self, operand: u32) -> sys::Operand {
        usize::try_from(operand).ok().and_then(|at| self.raw.ops.get(at)).copied().unwrap_or_default()
    }

    /// The first operand of a kind.
    fn first(&self, kind: OpKind) -> sys::Operand {
        self.raw.ops.iter().find(|op| OpKind::of(op.kind) == kind).copied().unwrap_or_default()
    }

    /// The number of its operands, 0 to 4.
    #[must_use]
    pub fn op_count(&self) -> u32 {
        self.raw.ops.iter().take_while(|op| op.kind != 0).count() as u32
    }

    /// The kind of an operand, counted from 0; [`OpKind::None`] if it has fewer.
    #[must_use]
    #[inline]
    pub fn op_kind(&self, operand: u32) -> OpKind {
        OpKind::of(self.op(operand).kind)
    }

    /// The kinds of its operands.
    pub fn op_kinds(&self) -> impl ExactSizeIterator<Item = OpKind> + '_ {
        let count = self.op_count() as usize;
        self.raw.ops.iter().take(count).map(|op| OpKind::of(op.kind))
    }

    /// An operand, counted from 0, or `None` if it has fewer.
    #[must_use]
    pub fn operand(&self, operand: u32) -> Option<Operand> {
        let op = self.op(operand);
        Some(match OpKind::of(op.kind) {
            OpKind::None => return None,
            OpKind::Register => Operand::Register(Register::of(op.reg_class, op.reg_number)),
            OpKind::Memory => Operand::Memory(MemoryOperand::of(&self.raw, &op)),
            OpKind::Immediate => Operand::Immediate(op.value),
            OpKind::NearBranch => Operand::NearBranch(op.value),
            OpKind::FarBranch => Operand::FarBranch { selector: op.selector, offset: op.offset },
        })
    }

    /// Its operands.
    pub fn operands(&self) -> impl Iterator<Item = Operand> + '_ {
        (0..4).map_while(move |at| self.operand(at))
    }

    /// The register of an operand; [`Register::None`] if the operand is no register.
    #[must_use]
    #[inline]
    pub fn op_register(&self, operand: u32) -> Register {
        let op = self.op(operand);
        if OpKind::of(op.kind) == OpKind::Register {
            Register::of(op.reg_class, op.reg_number)
        } else {
            Register::None
        }
    }

    /// The first operand's kind.
    #[must_use]
    pub fn op0_kind(&self) -> OpKind {
        self.op_kind(0)
    }

    /// The second operand's kind.
    #[must_use]
    pub fn op1_kind(&self) -> OpKind {
        self.op_kind(1)
    }

    /// The third operand's kind.
    #[must_use]
    pub fn op2_kind(&self) -> OpKind {
        self.op_kind(2)
    }

    /// The fourth operand's kind.
    #[must_use]
    pub fn op3_kind(&self) -> OpKind {
        self.op_kind(3)
    }

    /// The first operand's register.
    #[must_use]
    pub fn op0_register(&self) -> Register {
        self.op_register(0)
    }

    /// The second operand's register.
    #[must_use]
    pub fn op1_register(&self) -> Register {
        self.op_register(1)
    }

    /// The third operand's register.
    #[must_use]
    pub fn op2_register(&self) -> Register {
        self.op_register(2)
    }

    /// The fourth operand's register.
    #[must_use]
    pub fn op3_register(&self) -> Register {
        self.op_register(3)
    }

    /// The immediate of an operand; 0 if the operand is no immediate. One that is sign-extended is truncated to the
    /// operand size.
    #[must_use]
    pub fn immediate(&self, operand: u32) -> u64 {
        let op = self.op(operand);
        if OpKind::of(op.kind) == OpKind::Immediate {
            op.value
        } else {
            0
        }
    }

    /// The low 8 bits of the first immediate.
    #[must_use]
    pub fn immediate8(&self) -> u8 {
        self.first(OpKind::Immediate).value as u8
    }

    /// The low 16 bits of the first immediate.
    #[must_use]
    pub fn immediate16(&self) -> u16 {
        self.first(OpKind::Immediate).value as u16
    }

    /// The low 32 bits of the first immediate.
    #[must_use]
    pub fn immediate32(&self) -> u32 {
        self.first(OpKind::Immediate).value as u32
    }

    /// The first immediate.
    #[must_use]
    pub fn immediate64(&self) -> u64 {
        self.first(OpKind::Immediate).value
    }

    /// Whether it has a memory operand.
    #[must_use]
    pub fn has_memory_operand(&self) -> bool {
        self.raw.ops.iter().any(|op| OpKind::of(op.kind) == OpKind::Memory)
    }

    /// The base of its memory operand.
    #[must_use]
    pub fn memory_base(&self) -> Register {
        let op = self.first(OpKind::Memory);
        Register::of(op.reg_class, op.reg_number)
    }

    /// The index of its memory operand.
    #[must_use]
    pub fn memory_index(&self) -> Register {
        let op = self.first(OpKind::Memory);
        Register::of(op.index_class, op.index_number)
    }

    /// The scale of the index of its memory operand: 1, 2, 4 or 8.
    #[must_use]
    pub fn memory_index_scale(&self) -> u32 {
        u32::from(self.first(OpKind::Memory).scale).max(1)
    }

    /// The displacement of its memory operand, sign-extended and then truncated to the address size. With the base RIP or
    /// EIP it is the absolute address of the operand.
    #[must_use]
    pub fn memory_displacement64(&self) -> u64 {
        self.first(OpKind::Memory).value
    }

    /// The low 32 bits of the displacement.
    #[must_use]
    pub fn memory_displacement32(&self) -> u32 {
        self.first(OpKind::Memory).value as u32
    }

    /// The size of the displacement in bytes: 0, 1, 2, 4 or 8.
    #[must_use]
    pub fn memory_displ_size(&self) -> u32 {
        u32::from(self.first(OpKind::Memory).disp_bits) / 8
    }

    /// The size of its memory operand in bytes; 0 without one, or if it has no size.
    #[must_use]
    pub fn memory_size(&self) -> usize {
        self.about().map_or(0, |about| usize::from(about.memory_size))
    }

    /// The segment register of its prefix, or [`Register::None`].
    #[must_use]
    pub fn segment_prefix(&self) -> Register {
        Register::of_prefix(self.raw.segment)
    }

    /// Whether it has a segment prefix.
    #[must_use]
    pub fn has_segment_prefix(&self) -> bool {
        self.segment_prefix() != Register::None
    }

    /// Its address size in bits: 16, 32 or 64 if it has a memory operand or uses an address size, else 0.
    #[must_use]
    pub const fn address_size(&self) -> u32 {
        self.raw.asize as u32
    }

    /// Whether its memory operand has the base RIP or EIP.
    #[must_use]
    pub fn is_ip_rel_memory_operand(&self) -> bool {
        self.memory_base().is_ip()
    }

    /// The absolute address of a memory operand with the base RIP or EIP, else 0.
    #[must_use]
    pub fn ip_rel_memory_address(&self) -> u64 {
        if self.is_ip_rel_memory_operand() {
            self.memory_displacement64()
        } else {
            0
        }
    }

    /// The target of a near branch, else 0.
    #[must_use]
    pub fn near_branch_target(&self) -> u64 {
        self.first(OpKind::NearBranch).value
    }

    /// The target of a near branch, else 0: [`Instruction::near_branch_target`].
    #[must_use]
    pub fn near_branch64(&self) -> u64 {
        self.near_branch_target()
    }

    /// The selector of a far branch, else 0.
    #[must_use]
    pub fn far_branch_selector(&self) -> u16 {
        self.first(OpKind::FarBranch).selector
    }

    /// The offset of a far branch, else 0.
    #[must_use]
    pub fn far_branch32(&self) -> u32 {
        self.first(OpKind::FarBranch).offset
    }
}

/// The numbers of the repeat prefixes in `feddurzai.h`.
const REPNE: u8 = 0xF2;
const REP: u8 = 0xF3;

/// Prefixes.
impl Instruction {
    /// Whether it has LOCK.
    #[must_use]
    pub const fn has_lock_prefix(&self) -> bool {
        self.raw.lock != 0
    }

    /// Whether it has F3 as a repeat prefix.
    #[must_use]
    pub const fn has_rep_prefix(&self) -> bool {
        self.raw.rep == REP
    }

    /// Whether it has F3 as a repeat prefix.
    #[must_use]
    pub const fn has_repe_prefix(&self) -> bool {
        self.has_rep_prefix()
    }

    /// Whether it has F2 as a repeat prefix.
    #[must_use]
    pub const fn has_repne_prefix(&self) -> bool {
        self.raw.rep == REPNE
    }
}

/// Changes. A changed instruction has no bytes until it is encoded.
impl Instruction {
    fn changed(&mut self) -> &mut sys::Instr {
        self.raw.len = 0;
        &mut self.raw
    }

    /// The first operand of a kind, to be changed.
    fn change(&mut self, kind: OpKind) -> Result<&mut sys::Operand, Error> {
        self.changed().ops.iter_mut().find(|op| OpKind::of(op.kind) == kind).ok_or(Error::BadForm)
    }

    /// Sets or removes LOCK.
    ///
    /// ```
    /// use feddurzai::{Code, Instruction, MemoryOperand, Register};
    ///
    /// let mut add = Instruction::with2(Code::Add_rm32_r32, MemoryOperand::with_base(Register::RAX), Register::ECX)?;
    /// add.set_has_lock_prefix(true);
    /// assert_eq!(add.to_string(), "lock add dword [rax], ecx");
    /// # Ok::<(), feddurzai::Error>(())
    /// ```
    pub fn set_has_lock_prefix(&mut self, has: bool) {
        self.changed().lock = u8::from(has);
    }

    /// Sets F3 as its repeat prefix, or removes its repeat prefix.
    pub fn set_has_rep_prefix(&mut self, has: bool) {
        self.changed().rep = if has { REP } else { 0 };
    }

    /// Sets F2 as its repeat prefix, or removes its repeat prefix.
    pub fn set_has_repne_prefix(&mut self, has: bool) {
        self.changed().rep = if has { REPNE } else { 0 };
    }

    /// Sets its segment prefix; a register that is no segment register removes it.
    pub fn set_segment_prefix(&mut self, register: Register) {
        self.changed().segment = register.prefix();
    }

    /// Sets its code; the operands stay.
    pub fn set_code(&mut self, code: Code) {
        self.changed().code = code.value();
    }

    /// Sets the target of a near branch.
    ///
    /// # Errors
    ///
    /// [`Error::BadForm`] if it is no near branch.
    pub fn set_near_branch64(&mut self, target: u64) -> Result<(), Error> {
        self.change(OpKind::NearBranch)?.value = target;
        Ok(())
    }

    /// Sets the displacement of its memory operand; with the base RIP or EIP, the absolute address. The size of the
    /// displacement stays.
    ///
    /// # Errors
    ///
    /// [`Error::BadForm`] if it has no memory operand.
    pub fn set_memory_displacement64(&mut self, displacement: u64) -> Result<(), Error> {
        let mask = mask_of(u32::from(self.raw.asize));
        self.change(OpKind::Memory)?.value = displacement & mask;
        Ok(())
    }

    /// Sets the register of an operand.
    ///
    /// # Errors
    ///
    /// [`Error::BadForm`] if the operand is no register.
    pub fn set_op_register(&mut self, operand: u32, register: Register) -> Result<(), Error> {
        match self.changed().ops.get_mut(operand as usize) {
            Some(op) if OpKind::of(op.kind) == OpKind::Register => {
                op.reg_class = register.raw_class();
                op.reg_number = register.raw_number();
                Ok(())
            }
            _ => Err(Error::BadForm),
        }
    }

    /// Sets the immediate of an operand.
    ///
    /// # Errors
    ///
    /// [`Error::BadForm`] if the operand is no immediate.
    pub fn set_immediate(&mut self, operand: u32, value: u64) -> Result<(), Error> {
        match self.changed().ops.get_mut(operand as usize) {
            Some(op) if OpKind::of(op.kind) == OpKind::Immediate => {
                op.value = value;
                Ok(())
            }
            _ => Err(Error::BadForm),
        }
    }
}

/// The addresses of a mode: 2^bitness - 1.
#[inline]
pub(crate) fn mask_of(bitness: u32) -> u64 {
    match bitness {
        16 => 0xFFFF,
        32 => 0xFFFF_FFFF,
        _ => u64::MAX,
    }
}

/// The mode of a bitness.
pub(crate) fn checked_mode(bitness: u32) -> Result<u8, Error> {
    match bitness {
        16 => Ok(16),
        32 => Ok(32),
        64 => Ok(64),
        _ => Err(Error::BadMode),
    }
}

impl Instruction {
    /// What is compared: the struct without its length.
    fn key(&self) -> (&[sys::Operand; 4], [u8; 6]) {
        let raw = &self.raw;
        let [low, high] = raw.code.to_le_bytes();
        (&raw.ops, [low, high, raw.lock, raw.rep, raw.segment, raw.asize])
    }
}

impl PartialEq for Instruction {
    fn eq(&self, other: &Instruction) -> bool {
        self.key() == other.key()
    }
}

impl Eq for Instruction {}

impl Hash for Instruction {
    fn hash<H: Hasher>(&self, state: &mut H) {
        let (ops, rest) = self.key();
        for op in ops {
            (op.kind, op.value, op.offset, op.selector).hash(state);
            [op.reg_class, op.reg_number, op.index_class, op.index_number, op.scale, op.disp_bits].hash(state);
        }
        rest.hash(state);
    }
}

impl fmt::Display for Instruction {
    fn fmt(&self, f: &mut fmt::Formatter<'_>) -> fmt::Result {
        let mut text = sys::Text::new();
        let status = Library::get().map_or(-1, |library| library.text(self.bitness(), 0, &self.raw, &mut text));
        f.pad(if status >= 0 { text.as_str() } else { sys::BAD })
    }
}

impl fmt::Debug for Instruction {
    fn fmt(&self, f: &mut fmt::Formatter<'_>) -> fmt::Result {
        f.debug_struct("Instruction")
            .field("ip", &format_args!("{:#x}", self.ip))
            .field("code", &self.code())
            .field("bytes", &format_args!("{:02x?}", self.bytes()))
            .field("text", &format_args!("{}", self))
            .finish()
    }
}
