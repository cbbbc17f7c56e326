//! Codes: the rows of the opcode table.

use crate::error::{taken, Error};
use crate::generated::CODES;
use crate::info::OpAccess;
use crate::mnemonic::Mnemonic;
use crate::sys::{Library, Text};
use core::fmt;

/// Declares the constants of some codes: their number, name and notation.
macro_rules! codes {
    ($($number:literal $name:ident $notation:literal,)*) => {
        #[allow(non_upper_case_globals)]
        impl Code {
            $(
                #[doc = concat!("`", $notation, "`")]
                pub const $name: Code = Code($number);
            )*
        }

        /// The names of the constants, in the order of their numbers.
        pub(super) static NAMES: &[&str] = &[$(stringify!($name)),*];
    };
}

mod legacy;
mod vex;

/// A code: the number of a row of the opcode table.
///
/// Each has a constant: the mnemonic and a word for each operand, as in iced-x86. `docs/for-iced-users.md` of the sources
/// says where a name differs from iced's.
///
/// ```
/// use feddurzai::{Code, Mnemonic};
///
/// assert_eq!(Code::Mov_r64_rm64.mnemonic(), Mnemonic::Mov);
/// assert_eq!(Code::Mov_r64_rm64.op_code().instruction()?.to_string(), "REX.W + 8B /r");
/// assert_eq!(Code::find("lea", "REX.W + 8D /r"), Some(Code::Lea_r64_m));
/// assert_eq!(format!("{:?}", Code::VEX_Vaddps_ymm_ymm_ymmm256), "VEX_Vaddps_ymm_ymm_ymmm256");
/// # Ok::<(), feddurzai::Error>(())
/// ```
#[derive(Clone, Copy, PartialEq, Eq, Hash, PartialOrd, Ord)]
pub struct Code(u16);

impl Code {
    /// No code: that of bytes with which no instruction begins.
    pub const INVALID: Code = Code(0xFFFF);

    /// Returns the code with a number, or `None` if no row has it.
    ///
    /// ```
    /// use feddurzai::Code;
    ///
    /// assert_eq!(Code::new(u32::from(Code::Retnq.value())), Some(Code::Retnq));
    /// assert_eq!(Code::new(u32::MAX), None);
    /// ```
    #[must_use]
    pub fn new(number: u32) -> Option<Code> {
        u16::try_from(number).ok().filter(|&number| number < CODES).map(Code)
    }

    /// The code of a number in a struct, [`Code::INVALID`] if no row has it.
    #[inline]
    pub(crate) fn of(number: u16) -> Code {
        if number < CODES {
            Code(number)
        } else {
            Code::INVALID
        }
    }

    /// Returns the row with a mnemonic in lower case and a notation, or `None` if there is none.
    #[must_use]
    pub fn find(mnemonic: &str, notation: &str) -> Option<Code> {
        Code::of_mnemonic(mnemonic)
            .find(|code| code.op_code().instruction().map_or(false, |text| text.as_str() == notation))
    }

    /// Returns the rows of a mnemonic in lower case, in the order of their codes. The library searches its table for each.
    ///
    /// ```
    /// use feddurzai::Code;
    ///
    /// assert!(Code::of_mnemonic("leave").eq([Code::Leavew, Code::Leaved, Code::Leaveq]));
    /// ```
    pub fn of_mnemonic(mnemonic: &str) -> impl Iterator<Item = Code> + '_ {
        (0..).map_while(move |n| {
            let code = Library::get().map_or(-1, |library| library.code_of(mnemonic, n));
            u32::try_from(code).ok().and_then(Code::new)
        })
    }

    /// Returns all codes.
    ///
    /// ```
    /// assert!(feddurzai::Code::values().count() >= 2083);
    /// ```
    pub fn values() -> impl Iterator<Item = Code> {
        (0..CODES).map(Code)
    }

    /// Its number.
    #[must_use]
    #[inline]
    pub const fn value(self) -> u16 {
        self.0
    }

    /// Its mnemonic.
    #[must_use]
    pub fn mnemonic(self) -> Mnemonic {
        Mnemonic::of_code(self.0)
    }

    /// What the table has of the row.
    #[must_use]
    pub const fn op_code(self) -> OpCodeInfo {
        OpCodeInfo { code: self }
    }

    /// The name of the constant.
    fn constant(self) -> &'static str {
        let at = usize::from(self.0);
        let name = legacy::NAMES.get(at).or_else(|| vex::NAMES.get(at.wrapping_sub(legacy::NAMES.len())));
        name.copied().unwrap_or("INVALID")
    }
}

impl Default for Code {
    fn default() -> Code {
        Code::INVALID
    }
}

impl fmt::Debug for Code {
    fn fmt(&self, f: &mut fmt::Formatter<'_>) -> fmt::Result {
        f.pad(self.constant())
    }
}

/// What the table has of a row: its notation and its operands.
///
/// ```
/// use feddurzai::{Code, OpAccess};
///
/// let row = Code::Mov_rm64_r64.op_code();
/// assert_eq!((row.mnemonic().as_str(), row.op_count()), ("mov", 2));
/// assert_eq!(row.op_kind(0)?.as_str(), "Ev");
/// assert_eq!(row.op_access(0)?, OpAccess::Write);
/// # Ok::<(), feddurzai::Error>(())
/// ```
#[derive(Clone, Copy, Debug, PartialEq, Eq, Hash)]
pub struct OpCodeInfo {
    code: Code,
}

impl OpCodeInfo {
    /// The code.
    #[must_use]
    pub const fn code(self) -> Code {
        self.code
    }

    /// The mnemonic.
    #[must_use]
    pub fn mnemonic(self) -> Mnemonic {
        self.code.mnemonic()
    }

    /// The name of the row, as the library has it: the text of its mnemonic.
    ///
    /// # Errors
    ///
    /// [`Error::BadCode`] for [`Code::INVALID`].
    pub fn name(self) -> Result<Text, Error> {
        let mut text = Text::new();
        taken(Library::get()?.name(u32::from(self.code.0), &mut text))?;
        Ok(text)
    }

    /// The notation of the row, as in the manual (Intel SDM volume 2, 3.1.1.1): `REX.W + 8B /r`.
    ///
    /// # Errors
    ///
    /// [`Error::BadCode`] for [`Code::INVALID`].
    pub fn instruction(self) -> Result<Text, Error> {
        let mut text = Text::new();
        taken(Library::get()?.notation(u32::from(self.code.0), &mut text))?;
        Ok(text)
    }

    /// The number of operands, 0 to 4.
    #[must_use]
    pub fn op_count(self) -> u32 {
        (0..4).take_while(|&index| self.op_kind(index).map_or(false, |kind| !kind.as_str().is_empty())).count() as u32
    }

    /// The kind of an operand, 0 to 3, by the code words of Intel SDM volume 2, A.2: `Ev`, `Gb`. `feddurzai.h` lists the
    /// words that A.2 does not have. An absent operand has an empty word.
    ///
    /// # Errors
    ///
    /// [`Error::BadCode`], or [`Error::NoName`] if `operand` is above 3.
    pub fn op_kind(self, operand: u32) -> Result<Text, Error> {
        self.operand(operand).map(|(kind, _)| kind)
    }

    /// How the row accesses an operand, 0 to 3. An absent operand has no access.
    ///
    /// # Errors
    ///
    /// [`Error::BadCode`], or [`Error::NoName`] if `operand` is above 3.
    pub fn op_access(self, operand: u32) -> Result<OpAccess, Error> {
        self.operand(operand).map(|(_, access)| access)
    }

    fn operand(self, operand: u32) -> Result<(Text, OpAccess), Error> {
        let (mut access, mut kind) = (0, Text::new());
        taken(Library::get()?.row_operand(u32::from(self.code.0), operand, &mut access, &mut kind))?;
        Ok((kind, OpAccess::of(access)))
    }
}
