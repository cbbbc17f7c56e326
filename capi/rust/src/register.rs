//! Registers.

use crate::error::{taken, Error};
use crate::formatter::FormatterSyntax;
use crate::sys::{Library, Text};
use core::fmt;

/// The class of a register.
///
/// ```
/// use feddurzai::{Register, RegisterClass};
///
/// assert_eq!(Register::R8D.class(), RegisterClass::R32);
/// assert_eq!(Register::R8D.number(), 8);
/// ```
#[derive(Clone, Copy, Debug, PartialEq, Eq, Hash, PartialOrd, Ord)]
#[non_exhaustive]
pub enum RegisterClass {
    /// No register.
    None,
    /// AL, CL, DL, BL, SPL, BPL, SIL, DIL, R8L to R15L: 0 to 15.
    Low8,
    /// AH, CH, DH, BH: 0 to 3.
    High8,
    /// AX to R15W: 0 to 15.
    R16,
    /// EAX to R15D: 0 to 15.
    R32,
    /// RAX to R15: 0 to 15.
    R64,
    /// ES, CS, SS, DS, FS, GS: 0 to 5.
    Segment,
    /// Control registers: 0 to 15.
    Control,
    /// Debug registers: 0 to 7.
    Debug,
    /// The x87 stack: 0 to 7.
    St,
    /// MMX registers: 0 to 7.
    Mm,
    /// XMM registers: 0 to 15.
    Xmm,
    /// YMM registers: 0 to 15.
    Ymm,
    /// EIP, as a base; the number is 0.
    Eip,
    /// RIP, as a base; the number is 0.
    Rip,
}

/// The classes by their numbers in `feddurzai.h`, with the number of registers and their size in bytes.
const CLASSES: [(RegisterClass, u8, usize); 15] = [
    (RegisterClass::None, 1, 0),
    (RegisterClass::Low8, 16, 1),
    (RegisterClass::High8, 4, 1),
    (RegisterClass::R16, 16, 2),
    (RegisterClass::R32, 16, 4),
    (RegisterClass::R64, 16, 8),
    (RegisterClass::Segment, 6, 2),
    (RegisterClass::Control, 16, 8),
    (RegisterClass::Debug, 8, 8),
    (RegisterClass::St, 8, 10),
    (RegisterClass::Mm, 8, 8),
    (RegisterClass::Xmm, 16, 16),
    (RegisterClass::Ymm, 16, 32),
    (RegisterClass::Eip, 1, 4),
    (RegisterClass::Rip, 1, 8),
];

/// A register: its class, and its number in the class. Each has a constant with the name of iced-x86.
///
/// ```
/// use feddurzai::Register;
///
/// assert_eq!(Register::AH.full_register(), Register::RAX);
/// assert_eq!(Register::R8D.size(), 4);
/// assert_eq!(Register::XMM3.to_string(), "xmm3");
/// assert_eq!(format!("{:?}", Register::R8L), "R8L");
/// assert!(Register::RSP.is_gpr64() && Register::FS.is_segment_register());
/// ```
#[derive(Clone, Copy, PartialEq, Eq, Hash, PartialOrd, Ord)]
pub struct Register {
    class: RegisterClass,
    number: u8,
}

macro_rules! registers {
    ($($class:ident: $($number:literal $name:ident)*;)*) => {
        impl Register {
            $($(
                #[doc = concat!("The register ", stringify!($name), ".")]
                pub const $name: Register = Register { class: RegisterClass::$class, number: $number };
            )*)*
        }

        /// All registers with their names.
        const NAMES: &[(Register, &str)] = &[$($((Register::$name, stringify!($name))),*),*];
    };
}

registers! {
    Low8: 0 AL 1 CL 2 DL 3 BL 4 SPL 5 BPL 6 SIL 7 DIL 8 R8L 9 R9L 10 R10L 11 R11L 12 R12L 13 R13L 14 R14L 15 R15L;
    High8: 0 AH 1 CH 2 DH 3 BH;
    R16: 0 AX 1 CX 2 DX 3 BX 4 SP 5 BP 6 SI 7 DI 8 R8W 9 R9W 10 R10W 11 R11W 12 R12W 13 R13W 14 R14W 15 R15W;
    R32: 0 EAX 1 ECX 2 EDX 3 EBX 4 ESP 5 EBP 6 ESI 7 EDI 8 R8D 9 R9D 10 R10D 11 R11D 12 R12D 13 R13D 14 R14D 15 R15D;
    R64: 0 RAX 1 RCX 2 RDX 3 RBX 4 RSP 5 RBP 6 RSI 7 RDI 8 R8 9 R9 10 R10 11 R11 12 R12 13 R13 14 R14 15 R15;
    Segment: 0 ES 1 CS 2 SS 3 DS 4 FS 5 GS;
    Control: 0 CR0 1 CR1 2 CR2 3 CR3 4 CR4 5 CR5 6 CR6 7 CR7 8 CR8 9 CR9 10 CR10 11 CR11 12 CR12 13 CR13 14 CR14 15 CR15;
    Debug: 0 DR0 1 DR1 2 DR2 3 DR3 4 DR4 5 DR5 6 DR6 7 DR7;
    St: 0 ST0 1 ST1 2 ST2 3 ST3 4 ST4 5 ST5 6 ST6 7 ST7;
    Mm: 0 MM0 1 MM1 2 MM2 3 MM3 4 MM4 5 MM5 6 MM6 7 MM7;
    Xmm: 0 XMM0 1 XMM1 2 XMM2 3 XMM3 4 XMM4 5 XMM5 6 XMM6 7 XMM7 8 XMM8 9 XMM9 10 XMM10 11 XMM11 12 XMM12 13 XMM13
         14 XMM14 15 XMM15;
    Ymm: 0 YMM0 1 YMM1 2 YMM2 3 YMM3 4 YMM4 5 YMM5 6 YMM6 7 YMM7 8 YMM8 9 YMM9 10 YMM10 11 YMM11 12 YMM12 13 YMM13
         14 YMM14 15 YMM15;
    Eip: 0 EIP;
    Rip: 0 RIP;
}

impl Register {
    /// No register.
    #[allow(non_upper_case_globals)]
    pub const None: Register = Register { class: RegisterClass::None, number: 0 };

    /// Returns the register with a class and a number, or `None` if the class has no such number.
    ///
    /// ```
    /// use feddurzai::{Register, RegisterClass};
    ///
    /// assert_eq!(Register::new(RegisterClass::Xmm, 15), Some(Register::XMM15));
    /// assert_eq!(Register::new(RegisterClass::Mm, 8), None);
    /// ```
    #[must_use]
    pub fn new(class: RegisterClass, number: u8) -> Option<Register> {
        let (_, count, _) = *CLASSES.get(class as usize)?;
        (number < count).then_some(Register { class, number })
    }

    /// Returns the register with a name in lower case, as the Intel style writes it, or `None` if there is none.
    ///
    /// ```
    /// assert_eq!(feddurzai::Register::from_name("r8d"), Some(feddurzai::Register::R8D));
    /// ```
    #[must_use]
    pub fn from_name(name: &str) -> Option<Register> {
        let is_named = |register: Register, constant: &str| {
            if register.class == RegisterClass::Low8 && register.number >= 8 {
                // R8L is written r8b
                constant.strip_suffix('L').zip(name.strip_suffix('b')).map_or(false, |(a, b)| a.eq_ignore_ascii_case(b))
            } else {
                constant.eq_ignore_ascii_case(name)
            }
        };
        let is_lower = !name.bytes().any(|byte| byte.is_ascii_uppercase());
        NAMES
            .iter()
            .find(|&&(register, constant)| is_lower && is_named(register, constant))
            .map(|&(register, _)| register)
    }

    /// Returns all registers.
    ///
    /// ```
    /// assert_eq!(feddurzai::Register::values().filter(|register| register.is_gpr64()).count(), 16);
    /// ```
    pub fn values() -> impl Iterator<Item = Register> {
        NAMES.iter().map(|&(register, _)| register)
    }

    /// The register of two numbers of `feddurzai.h`; numbers that name no register are no register.
    #[inline]
    pub(crate) fn of(class: u8, number: u8) -> Register {
        match CLASSES.get(usize::from(class)) {
            Some(&(class, count, _)) if number < count => Register { class, number },
            _ => Register::None,
        }
    }

    /// The segment register of a prefix of `feddurzai.h`, [`Register::None`] without one.
    #[inline]
    pub(crate) fn of_prefix(segment: u8) -> Register {
        match segment.checked_sub(1) {
            Some(number) => Register::of(RegisterClass::Segment as u8, number),
            None => Register::None,
        }
    }

    /// The number of the prefix of a segment register, 0 for any other register.
    pub(crate) fn prefix(self) -> u8 {
        if self.is_segment_register() {
            self.number + 1
        } else {
            0
        }
    }

    /// Its class.
    #[must_use]
    #[inline]
    pub const fn class(self) -> RegisterClass {
        self.class
    }

    /// Its number in its class.
    #[must_use]
    #[inline]
    pub const fn number(self) -> usize {
        self.number as usize
    }

    /// The number of its class in `feddurzai.h`.
    pub(crate) fn raw_class(self) -> u8 {
        self.class as u8
    }

    /// The number in its class, as `feddurzai.h` has it.
    pub(crate) fn raw_number(self) -> u8 {
        self.number
    }

    /// Its size in bytes; that of control and debug registers is their size in 64-bit mode. 0 for [`Register::None`].
    #[must_use]
    pub fn size(self) -> usize {
        CLASSES.get(self.class as usize).map_or(0, |&(_, _, size)| size)
    }

    /// The widest register that contains it: RAX for AH and EAX, YMM1 for XMM1, RIP for EIP, and any other itself.
    ///
    /// An MMX register is the low part of some x87 register, which depends on TOP; this is not reported (Intel SDM
    /// volume 1, 9.2.2).
    #[must_use]
    pub fn full_register(self) -> Register {
        let status = Library::get().map_or(-1, |library| library.full_register(self.class as u8, self.number));
        match u16::try_from(status) {
            Ok(full) => {
                let [class, number] = full.to_be_bytes();
                Register::of(class, number)
            }
            Err(_) => self,
        }
    }

    /// Whether it is a general register of 8 bits.
    #[must_use]
    pub const fn is_gpr8(self) -> bool {
        matches!(self.class, RegisterClass::Low8 | RegisterClass::High8)
    }

    /// Whether it is a general register of 16 bits.
    #[must_use]
    pub const fn is_gpr16(self) -> bool {
        matches!(self.class, RegisterClass::R16)
    }

    /// Whether it is a general register of 32 bits.
    #[must_use]
    pub const fn is_gpr32(self) -> bool {
        matches!(self.class, RegisterClass::R32)
    }

    /// Whether it is a general register of 64 bits.
    #[must_use]
    pub const fn is_gpr64(self) -> bool {
        matches!(self.class, RegisterClass::R64)
    }

    /// Whether it is a general register.
    #[must_use]
    pub const fn is_gpr(self) -> bool {
        self.is_gpr8() || self.is_gpr16() || self.is_gpr32() || self.is_gpr64()
    }

    /// Whether it is a segment register.
    #[must_use]
    pub const fn is_segment_register(self) -> bool {
        matches!(self.class, RegisterClass::Segment)
    }

    /// Whether it is a control register.
    #[must_use]
    pub const fn is_cr(self) -> bool {
        matches!(self.class, RegisterClass::Control)
    }

    /// Whether it is a debug register.
    #[must_use]
    pub const fn is_dr(self) -> bool {
        matches!(self.class, RegisterClass::Debug)
    }

    /// Whether it is a register of the x87 stack.
    #[must_use]
    pub const fn is_st(self) -> bool {
        matches!(self.class, RegisterClass::St)
    }

    /// Whether it is an MMX register.
    #[must_use]
    pub const fn is_mm(self) -> bool {
        matches!(self.class, RegisterClass::Mm)
    }

    /// Whether it is an XMM register.
    #[must_use]
    pub const fn is_xmm(self) -> bool {
        matches!(self.class, RegisterClass::Xmm)
    }

    /// Whether it is a YMM register.
    #[must_use]
    pub const fn is_ymm(self) -> bool {
        matches!(self.class, RegisterClass::Ymm)
    }

    /// Whether it is an XMM or a YMM register.
    #[must_use]
    pub const fn is_vector_register(self) -> bool {
        self.is_xmm() || self.is_ymm()
    }

    /// Whether it is EIP or RIP.
    #[must_use]
    pub const fn is_ip(self) -> bool {
        matches!(self.class, RegisterClass::Eip | RegisterClass::Rip)
    }

    /// Its name in a style: `rax`, in AT&T style `%rax`.
    ///
    /// # Errors
    ///
    /// [`Error::NoRegister`] for [`Register::None`].
    ///
    /// ```
    /// use feddurzai::{FormatterSyntax, Register};
    ///
    /// assert_eq!(Register::ST1.text_in(FormatterSyntax::Masm)?, "st(1)");
    /// # Ok::<(), feddurzai::Error>(())
    /// ```
    pub fn text_in(self, syntax: FormatterSyntax) -> Result<Text, Error> {
        let mut text = Text::new();
        taken(Library::get()?.register_text(syntax as u32, self.class as u8, self.number, &mut text))?;
        Ok(text)
    }
}

impl Default for Register {
    fn default() -> Register {
        Register::None
    }
}

impl fmt::Display for Register {
    fn fmt(&self, f: &mut fmt::Formatter<'_>) -> fmt::Result {
        match self.text_in(FormatterSyntax::Intel) {
            Ok(text) => f.pad(text.as_str()),
            Err(_) => f.pad("none"),
        }
    }
}

impl fmt::Debug for Register {
    fn fmt(&self, f: &mut fmt::Formatter<'_>) -> fmt::Result {
        let name = NAMES.iter().find(|(register, _)| register == self).map_or("None", |&(_, name)| name);
        f.pad(name)
    }
}
