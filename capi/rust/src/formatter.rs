//! The formatters: texts of instructions in three styles, whole or in parts.

use crate::error::{taken, Error};
use crate::instruction::Instruction;
use crate::mnemonic::Mnemonic;
use crate::register::{Register, RegisterClass};
use crate::sys::{
    Library, Piece, Text, BAD, MAX_PIECES, PIECE_KEYWORD, PIECE_MNEMONIC, PIECE_NUMBER, PIECE_OPERATOR, PIECE_PREFIX,
    PIECE_PUNCTUATION, PIECE_REGISTER, ROLE_ADDRESS, ROLE_OFFSET, ROLE_SELECTOR, ROLE_TARGET,
};

#[cfg(feature = "alloc")]
use alloc::string::String;

/// The style of a text.
///
/// ```
/// use feddurzai::{Decoder, DecoderOptions, FormatterSyntax};
///
/// // 48 89 5C 24 10
/// let mov = Decoder::new(64, b"\x48\x89\x5C\x24\x10", DecoderOptions::NONE).decode();
/// assert_eq!(mov.text(FormatterSyntax::Intel)?, "mov qword [rsp+0x10], rbx");
/// assert_eq!(mov.text(FormatterSyntax::Gas)?, "movq %rbx, 0x10(%rsp)");
/// assert_eq!(mov.text(FormatterSyntax::Masm)?, "mov qword ptr [rsp+10h], rbx");
/// # Ok::<(), feddurzai::Error>(())
/// ```
#[derive(Clone, Copy, Debug, PartialEq, Eq, Hash)]
#[non_exhaustive]
pub enum FormatterSyntax {
    /// Intel's style, with sizes and numbers as NASM writes them.
    Intel = 0,
    /// AT&T's style.
    Gas = 1,
    /// MASM's style.
    Masm = 2,
}

/// Texts.
impl Instruction {
    /// Its text in a style.
    ///
    /// # Errors
    ///
    /// [`Error::BadInstruction`] or [`Error::BadForm`].
    pub fn text(&self, syntax: FormatterSyntax) -> Result<Text, Error> {
        let mut text = Text::new();
        self.write_text(syntax, &mut text)?;
        Ok(text)
    }

    /// Writes its text in a style over another text, which is faster than [`Instruction::text`].
    ///
    /// # Errors
    ///
    /// [`Error::BadInstruction`] or [`Error::BadForm`]; then the text is empty.
    #[inline]
    pub fn write_text(&self, syntax: FormatterSyntax, text: &mut Text) -> Result<(), Error> {
        taken(Library::get()?.text(self.bitness(), syntax as u32, &self.raw, text)).map(|_| ())
    }

    /// Appends its text in a style to a string, without a copy of the text.
    ///
    /// # Errors
    ///
    /// [`Error::BadInstruction`] or [`Error::BadForm`]; then the string is unchanged.
    ///
    /// ```
    /// use feddurzai::{Decoder, DecoderOptions, FormatterSyntax};
    ///
    /// let mut line = String::from("401000 ");
    /// // C3
    /// Decoder::new(64, b"\xC3", DecoderOptions::NONE).decode().append_text(FormatterSyntax::Intel, &mut line)?;
    /// assert_eq!(line, "401000 ret");
    /// # Ok::<(), feddurzai::Error>(())
    /// ```
    #[cfg(feature = "alloc")]
    #[inline]
    pub fn append_text(&self, syntax: FormatterSyntax, string: &mut String) -> Result<(), Error> {
        taken(Library::get()?.append_text(self.bitness(), syntax as u32, &self.raw, string)).map(|_| ())
    }

    /// The name of the segment register of its prefix, in a style.
    ///
    /// # Errors
    ///
    /// [`Error::NoRegister`] if it has no segment prefix.
    ///
    /// ```
    /// use feddurzai::{Decoder, DecoderOptions, FormatterSyntax};
    ///
    /// // 64 48 8B 00: mov rax, qword fs:[rax]
    /// let mov = Decoder::new(64, b"\x64\x48\x8B\x00", DecoderOptions::NONE).decode();
    /// assert_eq!(mov.segment_prefix_text(FormatterSyntax::Gas)?, "%fs");
    /// # Ok::<(), feddurzai::Error>(())
    /// ```
    pub fn segment_prefix_text(&self, syntax: FormatterSyntax) -> Result<Text, Error> {
        let mut text = Text::new();
        taken(Library::get()?.segment_text(syntax as u32, self.raw.segment, &mut text))?;
        Ok(text)
    }
}

/// Returns the length of the instruction at the front of some bytes, and its text, by one call of the library.
///
/// # Errors
///
/// [`Error::BadMode`], [`Error::Invalid`] or [`Error::TooShort`].
///
/// ```
/// use feddurzai::{line_text, FormatterSyntax};
///
/// let (len, text) = line_text(64, FormatterSyntax::Intel, 0x1000, b"\x74\x10")?;
/// assert_eq!((len, text.as_str()), (2, "je 0x1012"));
/// # Ok::<(), feddurzai::Error>(())
/// ```
pub fn line_text(bitness: u32, syntax: FormatterSyntax, ip: u64, bytes: &[u8]) -> Result<(usize, Text), Error> {
    let mut text = Text::new();
    let len = taken(Library::get()?.line_text(bitness, syntax as u32, ip, bytes, &mut text))?;
    Ok((len, text))
}

/// What a part of a text is, for [`FormatterOutput`].
///
/// ```
/// use feddurzai::{Decoder, DecoderOptions, Formatter, FormatterOutput, FormatterTextKind, IntelFormatter};
///
/// struct Kinds(Vec<FormatterTextKind>);
/// impl FormatterOutput for Kinds {
///     fn write(&mut self, text: &str, kind: FormatterTextKind) {
///         if text != " " {
///             self.0.push(kind);
///         }
///     }
/// }
/// let mut kinds = Kinds(Vec::new());
/// // 83 C0 05: add eax, 0x5
/// IntelFormatter::new().format(&Decoder::new(64, b"\x83\xC0\x05", DecoderOptions::NONE).decode(), &mut kinds);
/// use FormatterTextKind::{Mnemonic, Number, Punctuation, Register};
/// assert_eq!(kinds.0, [Mnemonic, Register, Punctuation, Number]);
/// ```
#[derive(Clone, Copy, Debug, PartialEq, Eq, Hash)]
#[non_exhaustive]
pub enum FormatterTextKind {
    /// A space, or the whole text.
    Text,
    /// A prefix word: `lock`, `rep`, `a32`, a segment.
    Prefix,
    /// The mnemonic.
    Mnemonic,
    /// A word of an operand: `qword`, `ptr`, `rel`.
    Keyword,
    /// `+`, `-`, `*`, and `$` before an immediate in AT&T style.
    Operator,
    /// `,`, `:`, brackets and parentheses.
    Punctuation,
    /// A number.
    Number,
    /// A register.
    Register,
    /// The selector of a far pointer.
    SelectorValue,
    /// The target of a branch.
    LabelAddress,
    /// The target of a call.
    FunctionAddress,
    /// The absolute address of a memory operand with the base RIP or EIP.
    Data,
}

/// Receives the parts of a text, in order. Implement it to colour the parts, or to replace numbers by symbols.
///
/// ```
/// use feddurzai::{Decoder, DecoderOptions, Formatter, FormatterOutput, FormatterTextKind, Instruction, IntelFormatter};
///
/// /// Writes the name of the function at 0x2000.
/// struct Symbols(String);
/// impl FormatterOutput for Symbols {
///     fn write(&mut self, text: &str, _: FormatterTextKind) {
///         self.0.push_str(text);
///     }
///
///     fn write_number(&mut self, _: &Instruction, text: &str, value: u64, kind: FormatterTextKind) {
///         self.write(if value == 0x2000 { "main" } else { text }, kind);
///     }
/// }
///
/// let mut symbols = Symbols(String::new());
/// // E8 FB 0F 00 00 at 0x1000
/// let call = Decoder::with_ip(64, b"\xE8\xFB\x0F\x00\x00", 0x1000, DecoderOptions::NONE).decode();
/// IntelFormatter::new().format(&call, &mut symbols);
/// assert_eq!(symbols.0, "call main");
/// ```
pub trait FormatterOutput {
    /// Receives a part of the text.
    fn write(&mut self, text: &str, kind: FormatterTextKind);

    /// Receives a prefix word.
    fn write_prefix(&mut self, instruction: &Instruction, text: &str) {
        let _ = instruction;
        self.write(text, FormatterTextKind::Prefix);
    }

    /// Receives the mnemonic.
    fn write_mnemonic(&mut self, instruction: &Instruction, text: &str) {
        let _ = instruction;
        self.write(text, FormatterTextKind::Mnemonic);
    }

    /// Receives a register.
    fn write_register(&mut self, instruction: &Instruction, text: &str, register: Register) {
        let _ = (instruction, register);
        self.write(text, FormatterTextKind::Register);
    }

    /// Receives a number and its value. `kind` says whether it is an address.
    fn write_number(&mut self, instruction: &Instruction, text: &str, value: u64, kind: FormatterTextKind) {
        let _ = (instruction, value);
        self.write(text, kind);
    }

    /// Receives the whole text, before its parts. If it returns true, no parts follow: that is faster.
    fn write_whole(&mut self, text: &str) -> bool {
        let _ = text;
        false
    }

    /// The string to which the whole text is appended. If there is one, no other method is called: that is fastest.
    ///
    /// ```
    /// use feddurzai::{Decoder, DecoderOptions, Formatter, FormatterOutput, FormatterTextKind, IntelFormatter};
    ///
    /// struct Line(String);
    /// impl FormatterOutput for Line {
    ///     fn write(&mut self, text: &str, _: FormatterTextKind) {
    ///         self.0.push_str(text);
    ///     }
    ///
    ///     fn string(&mut self) -> Option<&mut String> {
    ///         Some(&mut self.0)
    ///     }
    /// }
    /// let mut line = Line(String::from("401000 "));
    /// // C3
    /// IntelFormatter::new().format(&Decoder::new(64, b"\xC3", DecoderOptions::NONE).decode(), &mut line);
    /// assert_eq!(line.0, "401000 ret");
    /// ```
    #[cfg(feature = "alloc")]
    #[inline]
    fn string(&mut self) -> Option<&mut String> {
        None
    }
}

#[cfg(feature = "alloc")]
impl FormatterOutput for String {
    #[inline]
    fn write(&mut self, text: &str, _: FormatterTextKind) {
        self.push_str(text);
    }

    #[inline]
    fn write_whole(&mut self, text: &str) -> bool {
        self.push_str(text);
        true
    }

    #[inline]
    fn string(&mut self) -> Option<&mut String> {
        Some(self)
    }
}

/// Writes the texts of instructions in a style.
///
/// ```
/// use feddurzai::{Decoder, DecoderOptions, Formatter, GasFormatter, IntelFormatter, MasmFormatter};
///
/// // 48 89 5C 24 10
/// let mov = Decoder::new(64, b"\x48\x89\x5C\x24\x10", DecoderOptions::NONE).decode();
/// let mut formatters: [Box<dyn Formatter>; 3] =
///     [Box::new(IntelFormatter::new()), Box::new(GasFormatter::new()), Box::new(MasmFormatter::new())];
/// let mut text = String::new();
/// for formatter in &mut formatters {
///     formatter.format(&mov, &mut text);
///     text.push('\n');
/// }
/// assert_eq!(text, "mov qword [rsp+0x10], rbx\nmovq %rbx, 0x10(%rsp)\nmov qword ptr [rsp+10h], rbx\n");
/// ```
pub trait Formatter {
    /// The style.
    fn syntax(&self) -> FormatterSyntax;

    /// Writes the text of an instruction, `(bad)` for something that is no instruction.
    #[inline]
    fn format(&mut self, instruction: &Instruction, output: &mut dyn FormatterOutput) {
        #[cfg(feature = "alloc")]
        if let Some(string) = output.string() {
            if instruction.append_text(self.syntax(), string).is_err() {
                string.push_str(BAD);
            }
            return;
        }
        let mut text = Text::new();
        if instruction.write_text(self.syntax(), &mut text).is_err() {
            text.set_bad();
        }
        if !output.write_whole(text.as_str()) {
            write_parts(self.syntax(), instruction, output, Wanted::All);
        }
    }

    /// Writes the prefix words and the mnemonic.
    fn format_mnemonic(&mut self, instruction: &Instruction, output: &mut dyn FormatterOutput) {
        write_parts(self.syntax(), instruction, output, Wanted::Name);
    }

    /// Writes the operands.
    fn format_all_operands(&mut self, instruction: &Instruction, output: &mut dyn FormatterOutput) {
        write_parts(self.syntax(), instruction, output, Wanted::Operands);
    }

    /// The name of a register, empty for [`Register::None`].
    fn format_register(&mut self, register: Register) -> Text {
        register.text_in(self.syntax()).unwrap_or_default()
    }
}

macro_rules! formatters {
    ($($(#[$about:meta])* $name:ident $syntax:ident $example:literal,)*) => {
        $(
            $(#[$about])*
            ///
            /// ```
            #[doc = concat!("use feddurzai::{Decoder, DecoderOptions, Formatter, ", stringify!($name), "};")]
            ///
            /// // 8B 48 08
            /// let mov = Decoder::new(64, b"\x8B\x48\x08", DecoderOptions::NONE).decode();
            /// let mut text = String::new();
            #[doc = concat!(stringify!($name), "::new().format(&mov, &mut text);")]
            #[doc = concat!("assert_eq!(text, \"", $example, "\");")]
            /// ```
            #[derive(Clone, Copy, Debug, Default, PartialEq, Eq, Hash)]
            pub struct $name(());

            impl $name {
                /// A formatter.
                #[must_use]
                pub const fn new() -> $name {
                    $name(())
                }
            }

            impl Formatter for $name {
                fn syntax(&self) -> FormatterSyntax {
                    FormatterSyntax::$syntax
                }
            }
        )*
    };
}

formatters! {
    /// Writes Intel's style, with sizes and numbers as NASM writes them.
    IntelFormatter Intel "mov ecx, dword [rax+0x8]",
    /// Writes AT&T's style.
    GasFormatter Gas "movl 0x8(%rax), %ecx",
    /// Writes MASM's style.
    MasmFormatter Masm "mov ecx, dword ptr [rax+8h]",
}

/// Intel's style is that of NASM.
///
/// ```
/// use feddurzai::{Decoder, DecoderOptions, Formatter, NasmFormatter};
///
/// // 8B 48 08
/// let mov = Decoder::new(64, b"\x8B\x48\x08", DecoderOptions::NONE).decode();
/// let mut text = String::new();
/// NasmFormatter::new().format(&mov, &mut text);
/// assert_eq!(text, "mov ecx, dword [rax+0x8]");
/// ```
pub type NasmFormatter = IntelFormatter;

/// The parts of a text that are written.
#[derive(Clone, Copy, PartialEq, Eq)]
enum Wanted {
    All,
    /// The prefix words and the mnemonic.
    Name,
    /// The operands.
    Operands,
}

/// Where a part of a text stands.
#[derive(Clone, Copy, PartialEq, Eq)]
enum Place {
    /// In the prefix words, the mnemonic, or the spaces between them.
    Name,
    /// Between the mnemonic and the operands.
    Between,
    /// In the operands.
    Operands,
}

impl Wanted {
    fn has(self, place: Place) -> bool {
        match self {
            Wanted::All => true,
            Wanted::Name => place == Place::Name,
            Wanted::Operands => place == Place::Operands,
        }
    }
}

/// Writes those parts of the text of an instruction that are wanted.
fn write_parts(syntax: FormatterSyntax, instruction: &Instruction, output: &mut dyn FormatterOutput, wanted: Wanted) {
    let mut text = Text::new();
    let mut pieces = [Piece::default(); MAX_PIECES];
    let (bits, syntax) = (instruction.bitness(), syntax as u32);
    let found = Library::get().map(|library| library.pieces(bits, syntax, &instruction.raw, &mut text, &mut pieces));
    let count = match found.and_then(taken) {
        Ok(count) => count,
        Err(_) => {
            if wanted.has(Place::Name) {
                output.write_mnemonic(instruction, BAD);
            }
            return;
        }
    };
    let (mut place, mut is_negative) = (Place::Name, false);
    for piece in pieces.iter().take(count) {
        let part = text.as_str().get(usize::from(piece.start)..usize::from(piece.end)).unwrap_or("");
        if wanted.has(place) {
            write_piece(instruction, output, piece, part, is_negative);
        }
        is_negative = part == "-";
        // one space stands between the mnemonic and the operands
        place = match place {
            Place::Name if piece.kind == PIECE_MNEMONIC => Place::Between,
            Place::Name => Place::Name,
            Place::Between | Place::Operands => Place::Operands,
        };
    }
}

/// Writes a piece. The digits of a number after a minus show its distance from zero.
fn write_piece(
    instruction: &Instruction,
    output: &mut dyn FormatterOutput,
    piece: &Piece,
    text: &str,
    is_negative: bool,
) {
    match piece.kind {
        PIECE_PREFIX => output.write_prefix(instruction, text),
        PIECE_MNEMONIC => output.write_mnemonic(instruction, text),
        PIECE_REGISTER => output.write_register(instruction, text, register_of(text)),
        PIECE_NUMBER => {
            let value = if is_negative { piece.value.wrapping_neg() } else { piece.value };
            output.write_number(instruction, text, value, kind_of_number(instruction, piece.role));
        }
        PIECE_KEYWORD => output.write(text, FormatterTextKind::Keyword),
        PIECE_OPERATOR => output.write(text, FormatterTextKind::Operator),
        PIECE_PUNCTUATION => output.write(text, FormatterTextKind::Punctuation),
        _ => output.write(text, FormatterTextKind::Text),
    }
}

/// The register of a piece.
fn register_of(text: &str) -> Register {
    let name = text.strip_prefix('%').unwrap_or(text);
    match name.as_bytes() {
        [b's', b't', b'(', digit @ b'0'..=b'7', b')'] => Register::of(RegisterClass::St as u8, digit - b'0'),
        _ => Register::from_name(name).unwrap_or(Register::None),
    }
}

/// What a number of an instruction is, by its role.
fn kind_of_number(instruction: &Instruction, role: u8) -> FormatterTextKind {
    match role {
        ROLE_TARGET | ROLE_OFFSET if matches!(instruction.mnemonic(), Mnemonic::Call | Mnemonic::Callf) => {
            FormatterTextKind::FunctionAddress
        }
        ROLE_TARGET | ROLE_OFFSET => FormatterTextKind::LabelAddress,
        ROLE_SELECTOR => FormatterTextKind::SelectorValue,
        ROLE_ADDRESS if instruction.is_ip_rel_memory_operand() => FormatterTextKind::Data,
        _ => FormatterTextKind::Number,
    }
}
