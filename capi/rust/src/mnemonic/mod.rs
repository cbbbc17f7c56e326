//! Mnemonics.

use core::fmt;

/// Declares the mnemonics: their number, constant and text.
macro_rules! mnemonics {
    ($($number:literal $name:ident $text:literal,)*) => {
        #[allow(non_upper_case_globals)]
        impl Mnemonic {
            $(
                #[doc = concat!("The mnemonic `", $text, "`.")]
                pub const $name: Mnemonic = Mnemonic($number);
            )*
        }

        /// The texts of the mnemonics; the first is that of [`Mnemonic::INVALID`].
        pub(super) static TEXTS: &[&str] = &["(bad)", $($text),*];
        /// The names of the constants.
        pub(super) static CONSTANTS: &[&str] = &["INVALID", $(stringify!($name)),*];
    };
}

mod names;

/// A mnemonic: the name of one or several rows of the table.
///
/// The constants are the mnemonics with a capital letter, as in iced-x86. The text of an instruction may have another
/// name than its row, by the address size: a `jrcxz` with 32-bit addresses prints as `jecxz`.
///
/// ```
/// use feddurzai::{Decoder, DecoderOptions, Mnemonic};
///
/// // 48 89 5C 24 10: mov qword [rsp+0x10], rbx
/// let mov = Decoder::new(64, b"\x48\x89\x5C\x24\x10", DecoderOptions::NONE).decode();
/// assert_eq!(mov.mnemonic(), Mnemonic::Mov);
/// assert_eq!(mov.mnemonic().as_str(), "mov");
/// assert_eq!(format!("{:?} {}", mov.mnemonic(), mov.mnemonic()), "Mov mov");
/// ```
#[derive(Clone, Copy, PartialEq, Eq, Hash, PartialOrd, Ord)]
pub struct Mnemonic(u16);

impl Mnemonic {
    /// No mnemonic: that of an invalid instruction.
    pub const INVALID: Mnemonic = Mnemonic(0);

    /// The mnemonic of a code.
    pub(crate) fn of_code(code: u16) -> Mnemonic {
        Mnemonic(names::OF_CODES.get(usize::from(code)).copied().unwrap_or(0))
    }

    /// Returns the mnemonic with a text in lower case, or `None` if no row has it.
    ///
    /// ```
    /// use feddurzai::Mnemonic;
    ///
    /// assert_eq!(Mnemonic::from_name("cmpxchg8b"), Some(Mnemonic::Cmpxchg8b));
    /// assert_eq!(Mnemonic::from_name("jz"), None);
    /// ```
    #[must_use]
    pub fn from_name(name: &str) -> Option<Mnemonic> {
        Mnemonic::values().find(|mnemonic| mnemonic.as_str() == name)
    }

    /// Returns all mnemonics, without [`Mnemonic::INVALID`], in the order of their texts.
    ///
    /// ```
    /// use feddurzai::Mnemonic;
    ///
    /// assert_eq!(Mnemonic::values().next(), Some(Mnemonic::Aaa));
    /// ```
    pub fn values() -> impl Iterator<Item = Mnemonic> {
        (1..names::TEXTS.len() as u16).map(Mnemonic)
    }

    /// Its text: lower case, at most 16 letters.
    #[must_use]
    pub fn as_str(self) -> &'static str {
        names::TEXTS.get(usize::from(self.0)).copied().unwrap_or("(bad)")
    }
}

impl fmt::Display for Mnemonic {
    fn fmt(&self, f: &mut fmt::Formatter<'_>) -> fmt::Result {
        f.pad(self.as_str())
    }
}

impl fmt::Debug for Mnemonic {
    fn fmt(&self, f: &mut fmt::Formatter<'_>) -> fmt::Result {
        f.pad(names::CONSTANTS.get(usize::from(self.0)).copied().unwrap_or("INVALID"))
    }
}
