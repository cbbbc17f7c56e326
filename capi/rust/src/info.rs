//! What an instruction does: flow, access, registers, memory, flags and CPUID features.

use crate::error::{taken, Error};
use crate::instruction::Instruction;
use crate::register::Register;
use crate::sys::{self, Library, Text};
use core::fmt;

/// Where control goes after an instruction.
///
/// ```
/// use feddurzai::{Decoder, DecoderOptions, FlowControl};
///
/// let flow_of = |code: &[u8]| Decoder::new(64, code, DecoderOptions::NONE).decode().flow_control();
/// assert_eq!(flow_of(b"\xC3"), FlowControl::Return);
/// assert_eq!(flow_of(b"\xFF\xE0"), FlowControl::IndirectBranch);
/// ```
#[derive(Clone, Copy, Debug, PartialEq, Eq, Hash, PartialOrd, Ord)]
#[non_exhaustive]
pub enum FlowControl {
    /// To the next instruction.
    Next,
    /// To a target in the instruction.
    UnconditionalBranch,
    /// To a target in a register or in memory.
    IndirectBranch,
    /// To a target in the instruction, or to the next instruction.
    ConditionalBranch,
    /// RET, RETF, IRET, SYSRET, SYSEXIT.
    Return,
    /// To a procedure, and later to the next instruction: CALL, SYSCALL, SYSENTER.
    Call,
    /// The same, with a target in a register or in memory.
    IndirectCall,
    /// INT, INT1, INT3, INTO.
    Interrupt,
    /// UD1, UD2.
    Exception,
}

impl FlowControl {
    /// The flow of a number of `feddurzai.h`.
    pub(crate) fn of(flow: u8) -> FlowControl {
        match flow {
            1 => FlowControl::UnconditionalBranch,
            2 => FlowControl::IndirectBranch,
            3 => FlowControl::ConditionalBranch,
            4 => FlowControl::Return,
            5 => FlowControl::Call,
            6 => FlowControl::IndirectCall,
            7 => FlowControl::Interrupt,
            8 => FlowControl::Exception,
            _ => FlowControl::Next,
        }
    }
}

/// How an instruction accesses the whole of an operand, a register or memory.
///
/// A write of a part counts as a read and a write. An access is conditional if a condition, a mask, or a repeat prefix
/// with a counter of 0 may suppress it.
///
/// ```
/// use feddurzai::{Decoder, DecoderOptions, InstructionInfoFactory, OpAccess};
///
/// // 48 01 C8: add rax, rcx
/// let add = Decoder::new(64, b"\x48\x01\xC8", DecoderOptions::NONE).decode();
/// let mut factory = InstructionInfoFactory::new();
/// assert_eq!(factory.info(&add).op0_access(), OpAccess::ReadWrite);
/// assert!(OpAccess::ReadWrite.reads() && OpAccess::CondWrite.writes());
/// ```
#[derive(Clone, Copy, Debug, PartialEq, Eq, Hash, PartialOrd, Ord)]
#[non_exhaustive]
pub enum OpAccess {
    /// No access: of an operand that is absent, or of which only the address is used.
    None,
    /// It is read.
    Read,
    /// It may be read.
    CondRead,
    /// It is written.
    Write,
    /// It may be written.
    CondWrite,
    /// It is read and written.
    ReadWrite,
    /// It is read, and may be written.
    ReadCondWrite,
    /// It may be read, and may be written.
    CondReadCondWrite,
}

/// For each set of access bits its access.
static ACCESSES: [OpAccess; 16] = {
    let mut found = [OpAccess::None; 16];
    let mut bits = 0;
    while bits < 16 {
        found[bits] = match (bits & 5, bits & 10) {
            (0, 0) => OpAccess::None,
            (4, 0) => OpAccess::CondRead,
            (_, 0) => OpAccess::Read,
            (0, 8) => OpAccess::CondWrite,
            (0, _) => OpAccess::Write,
            (4, 8) => OpAccess::CondReadCondWrite,
            (_, 8) => OpAccess::ReadCondWrite,
            _ => OpAccess::ReadWrite,
        };
        bits += 1;
    }
    found
};

impl OpAccess {
    /// The access of the bits of `feddurzai.h`: 1 read, 2 written, 4 may be read, 8 may be written.
    #[inline]
    pub(crate) fn of(bits: u8) -> OpAccess {
        ACCESSES[usize::from(bits & 15)]
    }

    /// Whether it is read, or may be.
    #[must_use]
    pub const fn reads(self) -> bool {
        !matches!(self, OpAccess::None | OpAccess::Write | OpAccess::CondWrite)
    }

    /// Whether it is written, or may be.
    #[must_use]
    pub const fn writes(self) -> bool {
        !matches!(self, OpAccess::None | OpAccess::Read | OpAccess::CondRead)
    }
}

/// A register that an instruction uses, and how.
///
/// ```
/// use feddurzai::{Decoder, DecoderOptions, InstructionInfoFactory, OpAccess, Register, UsedRegister};
///
/// // 53: push rbx
/// let push = Decoder::new(64, b"\x53", DecoderOptions::NONE).decode();
/// let mut factory = InstructionInfoFactory::new();
/// let used: Vec<UsedRegister> = factory.info(&push).used_registers().to_vec();
/// assert_eq!((used[0].register(), used[0].access()), (Register::RBX, OpAccess::Read));
/// assert_eq!((used[1].register(), used[1].access()), (Register::RSP, OpAccess::ReadWrite));
/// ```
#[derive(Clone, Copy, Debug, PartialEq, Eq, Hash)]
pub struct UsedRegister {
    register: Register,
    access: OpAccess,
}

impl UsedRegister {
    const NONE: UsedRegister = UsedRegister { register: Register::None, access: OpAccess::None };

    /// The register.
    #[must_use]
    pub const fn register(&self) -> Register {
        self.register
    }

    /// How it is accessed.
    #[must_use]
    pub const fn access(&self) -> OpAccess {
        self.access
    }
}

impl fmt::Display for UsedRegister {
    fn fmt(&self, f: &mut fmt::Formatter<'_>) -> fmt::Result {
        write!(f, "{}:{:?}", self.register, self.access)
    }
}

/// Memory that an instruction uses, and how: `segment:[base + index * scale + displacement]`.
///
/// The registers have the values that they hold before the instruction, but POP to memory at RSP uses the incremented
/// RSP. With the base RIP or EIP the displacement is the absolute address.
///
/// ```
/// use feddurzai::{Decoder, DecoderOptions, InstructionInfoFactory, OpAccess, Register};
///
/// // 53: push rbx
/// let push = Decoder::new(64, b"\x53", DecoderOptions::NONE).decode();
/// let mut factory = InstructionInfoFactory::new();
/// let memory = factory.info(&push).used_memory()[0];
/// assert_eq!((memory.segment(), memory.base(), memory.displacement() as i64), (Register::SS, Register::RSP, -8));
/// assert_eq!((memory.memory_size(), memory.access()), (8, OpAccess::Write));
/// ```
#[derive(Clone, Copy, Debug, PartialEq, Eq, Hash)]
pub struct UsedMemory {
    segment: Register,
    base: Register,
    index: Register,
    scale: u32,
    displacement: u64,
    size: usize,
    access: OpAccess,
}

impl UsedMemory {
    const NONE: UsedMemory = UsedMemory {
        segment: Register::None,
        base: Register::None,
        index: Register::None,
        scale: 1,
        displacement: 0,
        size: 0,
        access: OpAccess::None,
    };

    #[inline]
    fn of(memory: &sys::MemoryUse) -> UsedMemory {
        UsedMemory {
            segment: Register::of_prefix(memory.segment),
            base: Register::of(memory.base_class, memory.base_number),
            index: Register::of(memory.index_class, memory.index_number),
            scale: u32::from(memory.scale),
            displacement: memory.displacement,
            size: usize::from(memory.size),
            access: OpAccess::of(memory.access),
        }
    }

    /// The segment register: that of a prefix, else the default.
    #[must_use]
    pub const fn segment(&self) -> Register {
        self.segment
    }

    /// The base, or [`Register::None`].
    #[must_use]
    pub const fn base(&self) -> Register {
        self.base
    }

    /// The index, or [`Register::None`]; a vector register in a gather.
    #[must_use]
    pub const fn index(&self) -> Register {
        self.index
    }

    /// The scale of the index: 1, 2, 4 or 8.
    #[must_use]
    pub const fn scale(&self) -> u32 {
        self.scale
    }

    /// The displacement, truncated to the address size.
    #[must_use]
    pub const fn displacement(&self) -> u64 {
        self.displacement
    }

    /// The size in bytes; 0 if the state of the processor decides (XSAVE, XRSTOR).
    #[must_use]
    pub const fn memory_size(&self) -> usize {
        self.size
    }

    /// How it is accessed.
    #[must_use]
    pub const fn access(&self) -> OpAccess {
        self.access
    }
}

/// Flags, as bits of the sets of an [`InstructionInfo`]: those of EFLAGS with their bits of that register, and C0 to C3 of
/// the x87 status word with their bits of that word, plus 16.
///
/// ```
/// use feddurzai::{Decoder, DecoderOptions, RflagsBits};
///
/// // 11 D8: adc eax, ebx
/// let adc = Decoder::new(64, b"\x11\xD8", DecoderOptions::NONE).decode();
/// assert_eq!(adc.rflags_read(), RflagsBits::CF);
/// ```
#[derive(Clone, Copy, Debug)]
pub struct RflagsBits(());

macro_rules! flags {
    ($($(#[$about:meta])* $name:ident = $bits:literal,)*) => {
        impl RflagsBits {
            $($(#[$about])* pub const $name: u32 = $bits;)*
        }
    };
}

flags! {
    /// No flag.
    NONE = 0,
    /// Carry.
    CF = 0x1,
    /// Parity.
    PF = 0x4,
    /// Auxiliary carry.
    AF = 0x10,
    /// Zero.
    ZF = 0x40,
    /// Sign.
    SF = 0x80,
    /// Trap.
    TF = 0x100,
    /// Interrupt enable.
    IF = 0x200,
    /// Direction.
    DF = 0x400,
    /// Overflow.
    OF = 0x800,
    /// I/O privilege level: two bits.
    IOPL = 0x3000,
    /// Nested task.
    NT = 0x4000,
    /// Resume.
    RF = 0x1_0000,
    /// Virtual-8086 mode.
    VM = 0x2_0000,
    /// Alignment check.
    AC = 0x4_0000,
    /// Virtual interrupt.
    VIF = 0x8_0000,
    /// Virtual interrupt pending.
    VIP = 0x10_0000,
    /// Identification.
    ID = 0x20_0000,
    /// Condition code 0 of the x87 status word.
    C0 = 0x100_0000,
    /// Condition code 1 of the x87 status word.
    C1 = 0x200_0000,
    /// Condition code 2 of the x87 status word.
    C2 = 0x400_0000,
    /// Condition code 3 of the x87 status word.
    C3 = 0x4000_0000,
}

/// A CPUID feature.
///
/// ```
/// use feddurzai::CpuidFeature;
///
/// assert_eq!(CpuidFeature::AVX2.to_string(), "AVX2");
/// ```
#[derive(Clone, Copy, Debug, PartialEq, Eq, Hash, PartialOrd, Ord)]
pub struct CpuidFeature(u8);

macro_rules! features {
    ($($bit:literal $name:ident)*) => {
        impl CpuidFeature {
            $(
                #[doc = concat!("The feature ", stringify!($name), ".")]
                pub const $name: CpuidFeature = CpuidFeature($bit);
            )*
            /// The number of features.
            const COUNT: u8 = [$($bit),*].len() as u8;
        }
    };
}

features! {
    0 FPU 1 TSC 2 MSR 3 CX8 4 SEP 5 CMOV 6 CLFSH 7 MMX 8 FXSR 9 SSE 10 SSE2 11 SSE3 12 PCLMULQDQ 13 MONITOR 14 SSSE3
    15 FMA 16 CX16 17 SSE41 18 SSE42 19 MOVBE 20 POPCNT 21 AES 22 XSAVE 23 AVX 24 F16C 25 RDRAND 26 FSGSBASE 27 BMI1
    28 AVX2 29 BMI2 30 RDSEED 31 ADX 32 SMAP 33 CLFLUSHOPT 34 CET_SS 35 CET_IBT 36 XSAVEOPT 37 LZCNT 38 PREFETCHW
    39 SYSCALL 40 RDTSCP
}

impl CpuidFeature {
    /// Its name in the manual.
    fn text(self) -> Result<Text, Error> {
        let mut text = Text::new();
        taken(Library::get()?.feature_name(u32::from(self.0), &mut text))?;
        Ok(text)
    }
}

impl fmt::Display for CpuidFeature {
    fn fmt(&self, f: &mut fmt::Formatter<'_>) -> fmt::Result {
        match self.text() {
            Ok(text) => f.pad(text.as_str()),
            Err(_) => write!(f, "feature {}", self.0),
        }
    }
}

/// A set of CPUID features.
///
/// ```
/// use feddurzai::{CpuidFeature, Decoder, DecoderOptions};
///
/// // C4 E2 7D 18 C1: vbroadcastss ymm0, xmm1
/// let broadcast = Decoder::new(64, b"\xC4\xE2\x7D\x18\xC1", DecoderOptions::NONE).decode();
/// let needs = broadcast.cpuid_features();
/// assert!(needs.contains(CpuidFeature::AVX2));
/// assert_eq!(needs.to_string(), "AVX2");
/// ```
#[derive(Clone, Copy, Debug, Default, PartialEq, Eq, Hash)]
pub struct CpuidFeatures(u64);

impl CpuidFeatures {
    /// Whether a feature is in the set.
    #[must_use]
    pub const fn contains(self, feature: CpuidFeature) -> bool {
        self.0 >> feature.0 & 1 != 0
    }

    /// Whether the set is empty.
    #[must_use]
    pub const fn is_empty(self) -> bool {
        self.0 == 0
    }

    /// The features of both sets.
    #[must_use]
    pub const fn union(self, other: CpuidFeatures) -> CpuidFeatures {
        CpuidFeatures(self.0 | other.0)
    }

    /// The features of the set.
    pub fn iter(self) -> impl Iterator<Item = CpuidFeature> {
        (0..CpuidFeature::COUNT).map(CpuidFeature).filter(move |&feature| self.contains(feature))
    }
}

impl fmt::Display for CpuidFeatures {
    fn fmt(&self, f: &mut fmt::Formatter<'_>) -> fmt::Result {
        for (at, feature) in self.iter().enumerate() {
            write!(f, "{}{}", if at == 0 { "" } else { " " }, feature)?;
        }
        Ok(())
    }
}

const MAX_REGISTERS: usize = 32;
const MAX_MEMORY: usize = 4;

/// What an instruction does, by [`InstructionInfoFactory::info`]: named and implied registers and memory, the access of
/// each operand, flags and CPUID features.
///
/// ```
/// use feddurzai::{CpuidFeature, Decoder, DecoderOptions, FlowControl, InstructionInfoFactory, RflagsBits};
///
/// // 0F 94 C0: sete al
/// let sete = Decoder::new(64, b"\x0F\x94\xC0", DecoderOptions::NONE).decode();
/// let mut factory = InstructionInfoFactory::new();
/// let info = factory.info(&sete);
/// assert_eq!((info.rflags_read(), info.rflags_written()), (RflagsBits::ZF, RflagsBits::NONE));
/// assert_eq!(info.flow_control(), FlowControl::Next);
/// assert!(info.cpuid_features().is_empty());
/// ```
#[derive(Clone, Debug)]
pub struct InstructionInfo {
    registers: [UsedRegister; MAX_REGISTERS],
    register_count: usize,
    memory: [UsedMemory; MAX_MEMORY],
    memory_count: usize,
    accesses: [OpAccess; 4],
    flow: FlowControl,
    flags: Flags,
    features: CpuidFeatures,
}

#[derive(Clone, Copy, Debug, Default)]
struct Flags {
    read: u32,
    written: u32,
    cleared: u32,
    set: u32,
    undefined: u32,
    kept: u32,
}

impl Flags {
    fn of(touched: &sys::Touched) -> Flags {
        Flags {
            read: touched.flags_read,
            written: touched.flags_written,
            cleared: touched.flags_cleared,
            set: touched.flags_set,
            undefined: touched.flags_undefined,
            kept: touched.flags_kept,
        }
    }
}

impl InstructionInfo {
    const NONE: InstructionInfo = InstructionInfo {
        registers: [UsedRegister::NONE; MAX_REGISTERS],
        register_count: 0,
        memory: [UsedMemory::NONE; MAX_MEMORY],
        memory_count: 0,
        accesses: [OpAccess::None; 4],
        flow: FlowControl::Next,
        flags: Flags { read: 0, written: 0, cleared: 0, set: 0, undefined: 0, kept: 0 },
        features: CpuidFeatures(0),
    };

    fn fill(
        &mut self,
        instruction: &Instruction,
        about: &mut sys::About,
        touched: &mut sys::Touched,
    ) -> Result<(), Error> {
        let library = Library::get()?;
        taken(library.info(&instruction.raw, about))?;
        taken(library.effects(instruction.bitness(), &instruction.raw, touched))?;
        self.register_count = usize::from(touched.register_count);
        self.memory_count = usize::from(touched.memory_count);
        for (to, found) in self.registers.iter_mut().zip(&touched.registers).take(self.register_count) {
            to.register = Register::of(found.reg_class, found.reg_number);
            to.access = OpAccess::of(found.access);
        }
        for (to, found) in self.memory.iter_mut().zip(&touched.memory).take(self.memory_count) {
            *to = UsedMemory::of(found);
        }
        for (to, found) in self.accesses.iter_mut().zip(about.access) {
            *to = OpAccess::of(found);
        }
        self.flow = FlowControl::of(about.flow);
        self.flags = Flags::of(touched);
        self.features = CpuidFeatures(touched.features);
        Ok(())
    }

    /// The registers: those that operands name, then segment registers through which memory is accessed, then implied
    /// ones, and last the counter of a repeat prefix. A register may have several entries.
    #[must_use]
    pub fn used_registers(&self) -> &[UsedRegister] {
        self.registers.get(..self.register_count).unwrap_or(&self.registers)
    }

    /// The memory: that of the operand, then implied memory.
    #[must_use]
    pub fn used_memory(&self) -> &[UsedMemory] {
        self.memory.get(..self.memory_count).unwrap_or(&self.memory)
    }

    /// How an operand is accessed, counted from 0.
    #[must_use]
    pub fn op_access(&self, operand: u32) -> OpAccess {
        usize::try_from(operand).ok().and_then(|at| self.accesses.get(at)).copied().unwrap_or(OpAccess::None)
    }

    /// How the first operand is accessed.
    #[must_use]
    pub fn op0_access(&self) -> OpAccess {
        self.op_access(0)
    }

    /// How the second operand is accessed.
    #[must_use]
    pub fn op1_access(&self) -> OpAccess {
        self.op_access(1)
    }

    /// How the third operand is accessed.
    #[must_use]
    pub fn op2_access(&self) -> OpAccess {
        self.op_access(2)
    }

    /// How the fourth operand is accessed.
    #[must_use]
    pub fn op3_access(&self) -> OpAccess {
        self.op_access(3)
    }

    /// Where control goes after it.
    #[must_use]
    pub const fn flow_control(&self) -> FlowControl {
        self.flow
    }

    /// The CPUID features that it needs, all of them.
    #[must_use]
    pub const fn cpuid_features(&self) -> CpuidFeatures {
        self.features
    }

    /// The flags that its behaviour depends on.
    #[must_use]
    pub const fn rflags_read(&self) -> u32 {
        self.flags.read
    }

    /// The flags that it gives a value that is neither always 0 nor always 1.
    #[must_use]
    pub const fn rflags_written(&self) -> u32 {
        self.flags.written & !self.flags.cleared & !self.flags.set
    }

    /// The flags that become 0.
    #[must_use]
    pub const fn rflags_cleared(&self) -> u32 {
        self.flags.cleared
    }

    /// The flags that become 1.
    #[must_use]
    pub const fn rflags_set(&self) -> u32 {
        self.flags.set
    }

    /// The flags that the manual leaves undefined.
    #[must_use]
    pub const fn rflags_undefined(&self) -> u32 {
        self.flags.undefined
    }

    /// The flags that it writes, clears, sets or leaves undefined.
    #[must_use]
    pub const fn rflags_modified(&self) -> u32 {
        self.flags.written | self.flags.undefined
    }

    /// The modified flags that it may keep, as a shift by a count of 0 does.
    #[must_use]
    pub const fn rflags_kept(&self) -> u32 {
        self.flags.kept
    }
}

/// Reports what instructions do.
///
/// ```
/// use feddurzai::{Decoder, DecoderOptions, InstructionInfoFactory};
///
/// // 48 89 5C 24 10: mov qword [rsp+0x10], rbx
/// let mov = Decoder::new(64, b"\x48\x89\x5C\x24\x10", DecoderOptions::NONE).decode();
/// let mut factory = InstructionInfoFactory::new();
/// let used: Vec<String> = factory.info(&mov).used_registers().iter().map(|used| used.to_string()).collect();
/// assert_eq!(used, ["rsp:Read", "rbx:Read"]);
/// ```
#[derive(Clone, Debug)]
pub struct InstructionInfoFactory {
    info: InstructionInfo,
    // what the library reports: kept here, since a new struct would have to be cleared for each instruction
    about: sys::About,
    touched: sys::Touched,
}

impl Default for InstructionInfoFactory {
    fn default() -> InstructionInfoFactory {
        InstructionInfoFactory::new()
    }
}

impl InstructionInfoFactory {
    /// A factory.
    #[must_use]
    pub const fn new() -> InstructionInfoFactory {
        InstructionInfoFactory { info: InstructionInfo::NONE, about: sys::About::ZERO, touched: sys::Touched::ZERO }
    }

    /// What an instruction does in its mode. For something that is no instruction, the report is empty.
    pub fn info(&mut self, instruction: &Instruction) -> &InstructionInfo {
        if self.info.fill(instruction, &mut self.about, &mut self.touched).is_err() {
            self.info = InstructionInfo::NONE;
        }
        &self.info
    }

    /// What an instruction does in its mode.
    ///
    /// # Errors
    ///
    /// [`Error::BadInstruction`] or [`Error::BadForm`].
    ///
    /// ```
    /// use feddurzai::{Instruction, InstructionInfoFactory};
    ///
    /// assert!(InstructionInfoFactory::new().try_info(&Instruction::default()).is_err());
    /// ```
    pub fn try_info(&mut self, instruction: &Instruction) -> Result<&InstructionInfo, Error> {
        self.info.fill(instruction, &mut self.about, &mut self.touched)?;
        Ok(&self.info)
    }
}

/// Flags and CPUID features; each call makes a whole [`InstructionInfo`].
impl Instruction {
    fn flags(&self) -> Flags {
        self.touched().map_or(Flags::default(), |touched| Flags::of(&touched))
    }

    /// The flags that its behaviour depends on, of [`RflagsBits`].
    #[must_use]
    pub fn rflags_read(&self) -> u32 {
        self.flags().read
    }

    /// The flags that it gives a value that is neither always 0 nor always 1.
    #[must_use]
    pub fn rflags_written(&self) -> u32 {
        let flags = self.flags();
        flags.written & !flags.cleared & !flags.set
    }

    /// The flags that become 0.
    #[must_use]
    pub fn rflags_cleared(&self) -> u32 {
        self.flags().cleared
    }

    /// The flags that become 1.
    #[must_use]
    pub fn rflags_set(&self) -> u32 {
        self.flags().set
    }

    /// The flags that the manual leaves undefined.
    #[must_use]
    pub fn rflags_undefined(&self) -> u32 {
        self.flags().undefined
    }

    /// The flags that it writes, clears, sets or leaves undefined.
    #[must_use]
    pub fn rflags_modified(&self) -> u32 {
        let flags = self.flags();
        flags.written | flags.undefined
    }

    /// The CPUID features that it needs, all of them.
    #[must_use]
    pub fn cpuid_features(&self) -> CpuidFeatures {
        CpuidFeatures(self.touched().map_or(0, |touched| touched.features))
    }
}
