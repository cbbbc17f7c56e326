//! The library's functions and structs, and the only `unsafe` code of the crate.
//!
//! A change of the header's interface is made here and in `structs.rs`, which has the structs of the header.
//! `capi/codes.py` writes the number of the interface into `generated.rs`.
//!
//! Each method of [`Library`] is safe for every value of its arguments. The library checks all numbers itself. A
//! reference is never NULL, a slice has as many elements as its length says, and a `&mut` argument overlaps no other: that
//! is all that `feddurzai.h` requires of a caller.

#![allow(unsafe_code)]
// the methods of Library mirror functions of C
#![allow(clippy::too_many_arguments)]

mod structs;

pub use structs::*;

use crate::error::Error;
use crate::generated::INTERFACE;
use core::fmt;
use core::sync::atomic::{AtomicBool, Ordering};

#[cfg(feature = "alloc")]
use alloc::string::String;

/// The longest instruction, in bytes.
pub const MAX_LEN: usize = 15;
/// The longest text with its terminating 0, in bytes.
pub const MAX_TEXT: usize = 161;
/// The most pieces of a text.
pub const MAX_PIECES: usize = 40;
/// The kinds of pieces.
pub const PIECE_PREFIX: u8 = 0;
pub const PIECE_MNEMONIC: u8 = 1;
pub const PIECE_REGISTER: u8 = 2;
pub const PIECE_KEYWORD: u8 = 3;
pub const PIECE_NUMBER: u8 = 4;
pub const PIECE_OPERATOR: u8 = 5;
pub const PIECE_PUNCTUATION: u8 = 6;
/// The roles of numbers that are no plain ones.
pub const ROLE_TARGET: u8 = 4;
pub const ROLE_ADDRESS: u8 = 5;
pub const ROLE_SELECTOR: u8 = 6;
pub const ROLE_OFFSET: u8 = 7;
/// The text of bytes that are no instruction.
pub const BAD: &str = "(bad)";
/// The longest jump or call, in bytes.
pub const MAX_JUMP: usize = 16;
/// The longest code of a step, in bytes.
#[cfg(feature = "alloc")]
pub const MAX_STEP: usize = 53;
/// The longest patch of a detour, in bytes.
#[cfg(feature = "alloc")]
pub const MAX_PATCH: usize = 28;

extern "C" {
    fn feddurzai_interface() -> u32;
    fn feddurzai_version() -> u32;
    fn feddurzai_decode(bits: u32, ip: u64, bytes: *const u8, len: usize, instr: *mut Instr) -> i32;
    fn feddurzai_decode_many(
        bits: u32,
        ip: u64,
        bytes: *const u8,
        len: usize,
        instrs: *mut Instr,
        room: usize,
        count: *mut usize,
    ) -> i32;
    fn feddurzai_offsets(bits: u32, bytes: *const u8, len: usize, parts: *mut ByteOffsets) -> i32;
    fn feddurzai_text(bits: u32, syntax: u32, instr: *const Instr, out: *mut u8, room: usize) -> i32;
    fn feddurzai_pieces(
        bits: u32,
        syntax: u32,
        instr: *const Instr,
        text: *mut u8,
        room: usize,
        pieces: *mut Piece,
        count: usize,
    ) -> i32;
    fn feddurzai_line(
        bits: u32,
        syntax: u32,
        ip: u64,
        bytes: *const u8,
        len: usize,
        instr: *mut Instr,
        text: *mut u8,
        room: usize,
    ) -> i32;
    fn feddurzai_line_text(
        bits: u32,
        syntax: u32,
        ip: u64,
        bytes: *const u8,
        len: usize,
        text: *mut u8,
        room: usize,
    ) -> i32;
    fn feddurzai_encode(bits: u32, ip: u64, instr: *const Instr, out: *mut u8, room: usize) -> i32;
    fn feddurzai_encoded_len(bits: u32, ip: u64, instr: *const Instr) -> i32;
    fn feddurzai_assemble(bits: u32, ip: u64, text: *const u8, len: usize, out: *mut u8, room: usize) -> i32;
    fn feddurzai_read_intel(bits: u32, ip: u64, text: *const u8, len: usize, instr: *mut Instr) -> i32;
    fn feddurzai_jump(bits: u32, at: u64, target: u64, form: u32, out: *mut u8, room: usize) -> i32;
    fn feddurzai_register_text(syntax: u32, reg_class: u8, reg_number: u8, out: *mut u8, room: usize) -> i32;
    fn feddurzai_segment_text(syntax: u32, segment: u8, out: *mut u8, room: usize) -> i32;
    fn feddurzai_info(instr: *const Instr, about: *mut About) -> i32;
    fn feddurzai_effects(bits: u32, instr: *const Instr, touched: *mut Touched) -> i32;
    fn feddurzai_full_register(reg_class: u8, reg_number: u8) -> i32;
    fn feddurzai_feature_name(bit: u32, out: *mut u8, room: usize) -> i32;
    fn feddurzai_name(code: u32, out: *mut u8, room: usize) -> i32;
    fn feddurzai_notation(code: u32, out: *mut u8, room: usize) -> i32;
    fn feddurzai_row_operand(code: u32, index: u32, access: *mut u8, kind: *mut u8, room: usize) -> i32;
    fn feddurzai_code_of(name: *const u8, len: usize, n: usize) -> i32;
}

#[cfg(feature = "alloc")]
extern "C" {
    fn feddurzai_assemble_code(
        bits: u32,
        base: u64,
        text: *const u8,
        len: usize,
        names: *const u8,
        names_len: usize,
        code: *mut u8,
        room: usize,
        labels: *mut Label,
        label_room: usize,
        report: *mut RoutineReport,
    ) -> i32;
    fn feddurzai_assemble_code_near(
        bits: u32,
        base: u64,
        text: *const u8,
        len: usize,
        names: *const u8,
        names_len: usize,
        code: *mut u8,
        room: usize,
        labels: *mut Label,
        label_room: usize,
        report: *mut RoutineReport,
    ) -> i32;
    fn feddurzai_move(
        bits: u32,
        old_ip: u64,
        bytes: *const u8,
        len: usize,
        new_ip: u64,
        out: *mut u8,
        room: usize,
        map: *mut Moved,
        map_room: usize,
        report: *mut MoveReport,
    ) -> i32;
    fn feddurzai_move_outside(
        bits: u32,
        old_ip: u64,
        bytes: *const u8,
        len: usize,
        new_ip: u64,
        out: *mut u8,
        room: usize,
        map: *mut Moved,
        map_room: usize,
        report: *mut MoveReport,
    ) -> i32;
    fn feddurzai_move_unlisted(
        bits: u32,
        old_ip: u64,
        bytes: *const u8,
        len: usize,
        new_ip: u64,
        out: *mut u8,
        room: usize,
        map: *mut Moved,
        map_room: usize,
        report: *mut MoveReport,
    ) -> i32;
    fn feddurzai_move_blocks(
        bits: u32,
        bytes: *const u8,
        len: usize,
        blocks: *const Block,
        count: usize,
        out: *mut u8,
        room: usize,
        places: *mut PlacedBlock,
        places_room: usize,
        map: *mut Moved,
        map_room: usize,
        report: *mut BlocksReport,
    ) -> i32;
    fn feddurzai_region_reserve(region: *mut Region, blocks: *mut Live, room: usize, len: u64, place: *mut u64) -> i32;
    fn feddurzai_region_release(region: *mut Region, blocks: *mut Live, room: usize, place: u64) -> i32;
    fn feddurzai_region_fill(
        region: *const Region,
        blocks: *const Live,
        room: usize,
        place: u64,
        bytes: *const u8,
        len: usize,
        image: *mut u8,
        image_len: usize,
    ) -> i32;
    fn feddurzai_step(
        bits: u32,
        old_ip: u64,
        bytes: *const u8,
        len: usize,
        place: u64,
        out: *mut u8,
        room: usize,
        report: *mut StepReport,
    ) -> i32;
    fn feddurzai_step_len(bits: u32, old_ip: u64, bytes: *const u8, len: usize, base: u64) -> i32;
    fn feddurzai_step_call(
        bits: u32,
        old_ip: u64,
        bytes: *const u8,
        len: usize,
        place: u64,
        out: *mut u8,
        room: usize,
        report: *mut StepReport,
    ) -> i32;
    fn feddurzai_step_unlisted(
        bits: u32,
        old_ip: u64,
        bytes: *const u8,
        len: usize,
        place: u64,
        out: *mut u8,
        room: usize,
        report: *mut StepReport,
    ) -> i32;
    fn feddurzai_flow(
        bits: u32,
        base: u64,
        bytes: *const u8,
        len: usize,
        starts: *mut u32,
        room: usize,
        leaders: *mut u32,
        leaders_room: usize,
    ) -> i32;
    fn feddurzai_flow_from(
        bits: u32,
        base: u64,
        bytes: *const u8,
        len: usize,
        entries: *const u32,
        count: usize,
        starts: *mut u32,
        room: usize,
        leaders: *mut u32,
        leaders_room: usize,
        kinds: *mut u8,
        kinds_room: usize,
    ) -> i32;
    fn feddurzai_flow_unlisted(
        bits: u32,
        base: u64,
        bytes: *const u8,
        len: usize,
        entries: *const u32,
        count: usize,
        starts: *mut u32,
        room: usize,
        leaders: *mut u32,
        leaders_room: usize,
        kinds: *mut u8,
        kinds_room: usize,
    ) -> i32;
    fn feddurzai_detour(
        bits: u32,
        ip: u64,
        code: *const u8,
        len: usize,
        to: u64,
        place: u64,
        start: u32,
        patch: *mut u8,
        patch_room: usize,
        trampoline: *mut u8,
        trampoline_room: usize,
        report: *mut DetourReport,
    ) -> i32;
    fn feddurzai_detour_unlisted(
        bits: u32,
        ip: u64,
        code: *const u8,
        len: usize,
        to: u64,
        place: u64,
        start: u32,
        patch: *mut u8,
        patch_room: usize,
        trampoline: *mut u8,
        trampoline_room: usize,
        report: *mut DetourReport,
    ) -> i32;
    fn feddurzai_detour_with(
        bits: u32,
        ip: u64,
        code: *const u8,
        len: usize,
        to: u64,
        place: u64,
        start: u32,
        rules: u32,
        entries: *const u32,
        entry_count: usize,
        patch: *mut u8,
        patch_room: usize,
        trampoline: *mut u8,
        trampoline_room: usize,
        moved: *mut MovedStart,
        moved_room: usize,
        report: *mut HookReport,
    ) -> i32;
    fn feddurzai_detour_len(bits: u32, ip: u64, code: *const u8, len: usize, to: u64, start: u32, rules: u32) -> i32;
    fn feddurzai_detour_endbr(
        bits: u32,
        ip: u64,
        code: *const u8,
        len: usize,
        to: u64,
        place: u64,
        start: u32,
        rules: u32,
        entries: *const u32,
        entry_count: usize,
        patch: *mut u8,
        patch_room: usize,
        trampoline: *mut u8,
        trampoline_room: usize,
        moved: *mut MovedStart,
        moved_room: usize,
        report: *mut KeptReport,
    ) -> i32;
    fn feddurzai_detour_padding(
        bits: u32,
        ip: u64,
        padding: *const u8,
        padding_len: usize,
        code: *const u8,
        len: usize,
        to: u64,
        place: u64,
        start: u32,
        rules: u32,
        entries: *const u32,
        entry_count: usize,
        jump: *mut u8,
        jump_room: usize,
        patch: *mut u8,
        patch_room: usize,
        trampoline: *mut u8,
        trampoline_room: usize,
        moved: *mut MovedStart,
        moved_room: usize,
        report: *mut PaddedReport,
    ) -> i32;
    fn feddurzai_look(
        bits: u32,
        ip: u64,
        code: *const u8,
        len: usize,
        entries: *const u32,
        entry_count: usize,
        taken: u64,
        moved: *const u32,
        moved_count: usize,
        start: u32,
        view: *mut View,
    ) -> i32;
}

/// Returns the interface of the linked library.
pub fn interface() -> u32 {
    // SAFETY: the function takes and writes no memory, in every interface of the library.
    unsafe { feddurzai_interface() }
}

/// Returns the version of the linked library.
pub fn version() -> u32 {
    // SAFETY: the function takes and writes no memory, in every interface of the library.
    unsafe { feddurzai_version() }
}

/// A text of the library: ASCII, at most 160 bytes, as a `str`.
///
/// ```
/// use feddurzai::{Code, Text};
///
/// let notation: Text = Code::Xor_rm32_r32.op_code().instruction()?;
/// assert_eq!(notation, "o32 31 /r");
/// assert!(notation.starts_with("o32"));
/// # Ok::<(), feddurzai::Error>(())
/// ```
#[derive(Clone, Copy)]
pub struct Text {
    bytes: [u8; MAX_TEXT],
    len: usize,
}

/// The number of bytes in front of the first 0, 16 at a time.
#[cfg(target_arch = "x86_64")]
#[inline]
fn len_to_zero(bytes: &[u8; MAX_TEXT]) -> usize {
    use core::arch::x86_64::{_mm_cmpeq_epi8, _mm_loadu_si128, _mm_movemask_epi8, _mm_setzero_si128};
    for (at, part) in bytes.chunks_exact(16).enumerate() {
        // SAFETY: each x86-64 processor has SSE2, and `part` has 16 readable bytes; the load needs no alignment.
        let zeros = unsafe {
            let found = _mm_cmpeq_epi8(_mm_loadu_si128(part.as_ptr().cast()), _mm_setzero_si128());
            _mm_movemask_epi8(found)
        };
        if zeros != 0 {
            return 16 * at + zeros.trailing_zeros() as usize;
        }
    }
    MAX_TEXT - 1
}

/// The number of bytes in front of the first 0.
#[cfg(not(target_arch = "x86_64"))]
#[inline]
fn len_to_zero(bytes: &[u8; MAX_TEXT]) -> usize {
    bytes.iter().position(|&byte| byte == 0).unwrap_or(MAX_TEXT - 1)
}

impl Text {
    /// An empty text.
    #[must_use]
    #[inline]
    pub const fn new() -> Text {
        Text { bytes: [0; MAX_TEXT], len: 0 }
    }

    /// Lets a function of the library write the text, and returns its status. A status of 0 or more is the length.
    #[inline]
    fn filled(&mut self, write: impl FnOnce(*mut u8, usize) -> i32) -> i32 {
        let status = write(self.bytes.as_mut_ptr(), MAX_TEXT);
        self.len = if status >= 0 { (status as usize).min(MAX_TEXT) } else { 0 };
        status
    }

    /// Lets a function of the library write the text, and returns its status, which is not the length of the text.
    #[inline]
    fn filled_to_zero(&mut self, write: impl FnOnce(*mut u8, usize) -> i32) -> i32 {
        let status = write(self.bytes.as_mut_ptr(), MAX_TEXT);
        self.len = if status >= 0 { len_to_zero(&self.bytes) } else { 0 };
        status
    }

    /// Sets the text of bytes that are no instruction: `(bad)`.
    pub(crate) fn set_bad(&mut self) {
        self.bytes.iter_mut().zip(BAD.bytes()).for_each(|(to, from)| *to = from);
        self.len = BAD.len();
    }

    /// The bytes of the text.
    #[inline]
    fn written(&self) -> &[u8] {
        self.bytes.get(..self.len).unwrap_or(&self.bytes)
    }

    /// The text.
    #[must_use]
    #[inline]
    pub fn as_str(&self) -> &str {
        debug_assert!(self.written().is_ascii());
        // SAFETY: `len` is the number of bytes that a function of the library, or `set_bad`, has written to the front of the
        // buffer, and the texts of the library are ASCII: the contracts of its printers name the bytes.
        unsafe { core::str::from_utf8_unchecked(self.written()) }
    }
}

impl Default for Text {
    fn default() -> Text {
        Text::new()
    }
}

impl core::ops::Deref for Text {
    type Target = str;

    fn deref(&self) -> &str {
        self.as_str()
    }
}

impl PartialEq for Text {
    fn eq(&self, other: &Text) -> bool {
        self.as_str() == other.as_str()
    }
}

impl Eq for Text {}

impl PartialEq<str> for Text {
    fn eq(&self, other: &str) -> bool {
        self.as_str() == other
    }
}

impl PartialEq<&str> for Text {
    fn eq(&self, other: &&str) -> bool {
        self.as_str() == *other
    }
}

impl fmt::Display for Text {
    fn fmt(&self, f: &mut fmt::Formatter<'_>) -> fmt::Result {
        f.pad(self.as_str())
    }
}

impl fmt::Debug for Text {
    fn fmt(&self, f: &mut fmt::Formatter<'_>) -> fmt::Result {
        fmt::Debug::fmt(self.as_str(), f)
    }
}

/// The linked library, whose interface is that of this crate. All calls are methods of this type, so none is made before
/// the interface is compared.
#[derive(Clone, Copy, Debug)]
pub struct Library(());

static COMPARED: AtomicBool = AtomicBool::new(false);

#[cold]
fn compare() -> Result<Library, Error> {
    let library = interface();
    if library != INTERFACE {
        return Err(Error::Interface { library });
    }
    COMPARED.store(true, Ordering::Relaxed);
    Ok(Library(()))
}

impl Library {
    /// The linked library, or [`Error::Interface`].
    #[inline]
    pub fn get() -> Result<Library, Error> {
        if COMPARED.load(Ordering::Relaxed) {
            Ok(Library(()))
        } else {
            compare()
        }
    }

    #[inline]
    pub fn decode(self, bits: u32, ip: u64, bytes: &[u8], instr: &mut Instr) -> i32 {
        // SAFETY: `bytes` has `bytes.len()` readable bytes, `instr` is a struct of the header, and they do not overlap.
        unsafe { feddurzai_decode(bits, ip, bytes.as_ptr(), bytes.len(), instr) }
    }

    pub fn decode_many(self, bits: u32, ip: u64, bytes: &[u8], instrs: &mut [Instr], count: &mut usize) -> i32 {
        // SAFETY: the slices have as many elements as their lengths say, and no argument overlaps another.
        unsafe {
            feddurzai_decode_many(bits, ip, bytes.as_ptr(), bytes.len(), instrs.as_mut_ptr(), instrs.len(), count)
        }
    }

    pub fn offsets(self, bits: u32, bytes: &[u8], parts: &mut ByteOffsets) -> i32 {
        // SAFETY: `bytes` has `bytes.len()` readable bytes, and `parts` is a struct of the header.
        unsafe { feddurzai_offsets(bits, bytes.as_ptr(), bytes.len(), parts) }
    }

    #[inline]
    pub fn text(self, bits: u32, syntax: u32, instr: &Instr, text: &mut Text) -> i32 {
        // SAFETY: `instr` is a struct of the header, and `out` has `room` writable bytes.
        text.filled(|out, room| unsafe { feddurzai_text(bits, syntax, instr, out, room) })
    }

    pub fn pieces(self, bits: u32, syntax: u32, instr: &Instr, text: &mut Text, pieces: &mut [Piece]) -> i32 {
        // SAFETY: `instr` is a struct of the header, `out` has `room` writable bytes, and `pieces` as many structs as its length
        // says.
        text.filled_to_zero(|out, room| unsafe {
            feddurzai_pieces(bits, syntax, instr, out, room, pieces.as_mut_ptr(), pieces.len())
        })
    }

    /// Appends the text to a string: the function writes it behind the string's own bytes.
    #[cfg(feature = "alloc")]
    #[inline]
    pub fn append_text(self, bits: u32, syntax: u32, instr: &Instr, string: &mut String) -> i32 {
        string.reserve(MAX_TEXT);
        // SAFETY: `reserve` has made room for MAX_TEXT bytes behind the string's own; the function writes no others. After
        // success the first `status` of them are ASCII (the contracts of its printers name the bytes), so the string is
        // UTF-8 as before, and its length at most its capacity. After a failure the string is as before.
        unsafe {
            let bytes = string.as_mut_vec();
            let len = bytes.len();
            let status = feddurzai_text(bits, syntax, instr, bytes.as_mut_ptr().add(len), MAX_TEXT);
            if status > 0 {
                bytes.set_len(len + (status as usize).min(MAX_TEXT));
            }
            status
        }
    }

    #[inline]
    pub fn line(self, bits: u32, syntax: u32, ip: u64, bytes: &[u8], instr: &mut Instr, text: &mut Text) -> i32 {
        // SAFETY: `bytes` has `bytes.len()` readable bytes, `instr` is a struct of the header, `out` has `room` writable
        // bytes, and they do not overlap.
        text.filled_to_zero(|out, room| unsafe {
            feddurzai_line(bits, syntax, ip, bytes.as_ptr(), bytes.len(), instr, out, room)
        })
    }

    pub fn line_text(self, bits: u32, syntax: u32, ip: u64, bytes: &[u8], text: &mut Text) -> i32 {
        // SAFETY: `bytes` has `bytes.len()` readable bytes, and `out` has `room` writable bytes.
        text.filled_to_zero(|out, room| unsafe {
            feddurzai_line_text(bits, syntax, ip, bytes.as_ptr(), bytes.len(), out, room)
        })
    }

    pub fn encode(self, bits: u32, ip: u64, instr: &Instr, out: &mut [u8]) -> i32 {
        // SAFETY: `instr` is a struct of the header, and `out` has `out.len()` writable bytes.
        unsafe { feddurzai_encode(bits, ip, instr, out.as_mut_ptr(), out.len()) }
    }

    pub fn encoded_len(self, bits: u32, ip: u64, instr: &Instr) -> i32 {
        // SAFETY: `instr` is a struct of the header.
        unsafe { feddurzai_encoded_len(bits, ip, instr) }
    }

    pub fn assemble(self, bits: u32, ip: u64, text: &str, out: &mut [u8]) -> i32 {
        // SAFETY: `text` has `text.len()` readable bytes, and `out` has `out.len()` writable bytes.
        unsafe { feddurzai_assemble(bits, ip, text.as_ptr(), text.len(), out.as_mut_ptr(), out.len()) }
    }

    pub fn read_intel(self, bits: u32, ip: u64, text: &str, instr: &mut Instr) -> i32 {
        // SAFETY: `text` has `text.len()` readable bytes, and `instr` is a struct of the header.
        unsafe { feddurzai_read_intel(bits, ip, text.as_ptr(), text.len(), instr) }
    }

    pub fn jump(self, bits: u32, at: u64, target: u64, form: u32, out: &mut [u8]) -> i32 {
        // SAFETY: `out` has `out.len()` writable bytes.
        unsafe { feddurzai_jump(bits, at, target, form, out.as_mut_ptr(), out.len()) }
    }

    pub fn register_text(self, syntax: u32, reg_class: u8, reg_number: u8, text: &mut Text) -> i32 {
        // SAFETY: `out` has `room` writable bytes.
        text.filled(|out, room| unsafe { feddurzai_register_text(syntax, reg_class, reg_number, out, room) })
    }

    pub fn segment_text(self, syntax: u32, segment: u8, text: &mut Text) -> i32 {
        // SAFETY: `out` has `room` writable bytes.
        text.filled(|out, room| unsafe { feddurzai_segment_text(syntax, segment, out, room) })
    }

    pub fn info(self, instr: &Instr, about: &mut About) -> i32 {
        // SAFETY: the arguments are structs of the header that do not overlap.
        unsafe { feddurzai_info(instr, about) }
    }

    pub fn effects(self, bits: u32, instr: &Instr, touched: &mut Touched) -> i32 {
        // SAFETY: the arguments are structs of the header that do not overlap.
        unsafe { feddurzai_effects(bits, instr, touched) }
    }

    pub fn full_register(self, reg_class: u8, reg_number: u8) -> i32 {
        // SAFETY: the function takes and writes no memory.
        unsafe { feddurzai_full_register(reg_class, reg_number) }
    }

    pub fn feature_name(self, bit: u32, text: &mut Text) -> i32 {
        // SAFETY: `out` has `room` writable bytes.
        text.filled(|out, room| unsafe { feddurzai_feature_name(bit, out, room) })
    }

    pub fn name(self, code: u32, text: &mut Text) -> i32 {
        // SAFETY: `out` has `room` writable bytes.
        text.filled(|out, room| unsafe { feddurzai_name(code, out, room) })
    }

    pub fn notation(self, code: u32, text: &mut Text) -> i32 {
        // SAFETY: `out` has `room` writable bytes.
        text.filled(|out, room| unsafe { feddurzai_notation(code, out, room) })
    }

    pub fn row_operand(self, code: u32, index: u32, access: &mut u8, kind: &mut Text) -> i32 {
        // SAFETY: `access` is a writable byte, `out` has `room` writable bytes, and they do not overlap.
        kind.filled(|out, room| unsafe { feddurzai_row_operand(code, index, access, out, room) })
    }

    pub fn code_of(self, name: &str, n: usize) -> i32 {
        // SAFETY: `name` has `name.len()` readable bytes.
        unsafe { feddurzai_code_of(name.as_ptr(), name.len(), n) }
    }
}

/// Where moved code goes: the bytes and the map of its instructions.
#[cfg(feature = "alloc")]
pub struct MoveOut<'a> {
    pub code: &'a mut [u8],
    pub map: &'a mut [Moved],
}

/// The lists of a flow graph, each with an element for each reached offset.
#[cfg(feature = "alloc")]
pub struct FlowOut<'a> {
    pub starts: &'a mut [u32],
    pub leaders: &'a mut [u32],
    pub kinds: &'a mut [u8],
}

/// Where a detour by rules goes: its parts and the list of its moved instructions.
#[cfg(feature = "alloc")]
pub struct HookOut<'a> {
    pub patch: &'a mut [u8],
    pub trampoline: &'a mut [u8],
    pub moved: &'a mut [MovedStart],
}

/// What a call that moves one block does with targets and with instructions that have no row.
#[cfg(feature = "alloc")]
#[derive(Clone, Copy)]
pub enum Mover {
    /// Moved targets are followed.
    Following,
    /// Every target stays.
    Outside,
    /// Moved targets are followed, and instructions without a row are moved whole.
    Unlisted,
}

/// The calls that allocate memory, and regions.
#[cfg(feature = "alloc")]
impl Library {
    /// Moves code.
    pub fn move_code(
        self,
        mover: Mover,
        bits: u32,
        old_ip: u64,
        bytes: &[u8],
        new_ip: u64,
        out: MoveOut<'_>,
        report: &mut MoveReport,
    ) -> i32 {
        let call = match mover {
            Mover::Following => feddurzai_move,
            Mover::Outside => feddurzai_move_outside,
            Mover::Unlisted => feddurzai_move_unlisted,
        };
        let (code, map) = (out.code, out.map);
        // SAFETY: each slice has as many elements as its length says, `report` is a struct of the header, and no argument
        // that is written overlaps another.
        unsafe {
            call(
                bits,
                old_ip,
                bytes.as_ptr(),
                bytes.len(),
                new_ip,
                code.as_mut_ptr(),
                code.len(),
                map.as_mut_ptr(),
                map.len(),
                report,
            )
        }
    }

    pub fn assemble_code(
        self,
        slots: bool,
        bits: u32,
        base: u64,
        text: &str,
        names: &str,
        code: &mut [u8],
        labels: &mut [Label],
        report: &mut RoutineReport,
    ) -> i32 {
        let assemble = if slots { feddurzai_assemble_code } else { feddurzai_assemble_code_near };
        // SAFETY: each slice has as many elements as its length says, `report` is a struct of the header, and no argument
        // that is written overlaps another.
        unsafe {
            assemble(
                bits,
                base,
                text.as_ptr(),
                text.len(),
                names.as_ptr(),
                names.len(),
                code.as_mut_ptr(),
                code.len(),
                labels.as_mut_ptr(),
                labels.len(),
                report,
            )
        }
    }

    pub fn move_blocks(
        self,
        bits: u32,
        bytes: &[u8],
        blocks: &[Block],
        out: MoveOut<'_>,
        places: &mut [PlacedBlock],
        report: &mut BlocksReport,
    ) -> i32 {
        let (code, map) = (out.code, out.map);
        // SAFETY: each slice has as many elements as its length says, `report` is a struct of the header, and no argument
        // that is written overlaps another.
        unsafe {
            feddurzai_move_blocks(
                bits,
                bytes.as_ptr(),
                bytes.len(),
                blocks.as_ptr(),
                blocks.len(),
                code.as_mut_ptr(),
                code.len(),
                places.as_mut_ptr(),
                places.len(),
                map.as_mut_ptr(),
                map.len(),
                report,
            )
        }
    }

    pub fn region_reserve(self, region: &mut Region, blocks: &mut [Live], len: u64, place: &mut u64) -> i32 {
        // SAFETY: `blocks` has `blocks.len()` elements, the others are a struct and a number, and none overlaps another.
        unsafe { feddurzai_region_reserve(region, blocks.as_mut_ptr(), blocks.len(), len, place) }
    }

    pub fn region_release(self, region: &mut Region, blocks: &mut [Live], place: u64) -> i32 {
        // SAFETY: `blocks` has `blocks.len()` elements, `region` is a struct of the header, and they do not overlap.
        unsafe { feddurzai_region_release(region, blocks.as_mut_ptr(), blocks.len(), place) }
    }

    pub fn region_fill(self, region: &Region, blocks: &[Live], place: u64, bytes: &[u8], image: &mut [u8]) -> i32 {
        // SAFETY: each slice has as many elements as its length says, and `image` overlaps no other argument.
        unsafe {
            feddurzai_region_fill(
                region,
                blocks.as_ptr(),
                blocks.len(),
                place,
                bytes.as_ptr(),
                bytes.len(),
                image.as_mut_ptr(),
                image.len(),
            )
        }
    }

    pub fn step(
        self,
        bits: u32,
        old_ip: u64,
        bytes: &[u8],
        place: u64,
        out: &mut [u8],
        report: &mut StepReport,
    ) -> i32 {
        // SAFETY: each slice has as many elements as its length says, `report` is a struct of the header, and no argument
        // that is written overlaps another.
        unsafe { feddurzai_step(bits, old_ip, bytes.as_ptr(), bytes.len(), place, out.as_mut_ptr(), out.len(), report) }
    }

    pub fn step_len(self, bits: u32, old_ip: u64, bytes: &[u8], base: u64) -> i32 {
        // SAFETY: `bytes` has `bytes.len()` readable bytes.
        unsafe { feddurzai_step_len(bits, old_ip, bytes.as_ptr(), bytes.len(), base) }
    }

    pub fn step_call(
        self,
        bits: u32,
        old_ip: u64,
        bytes: &[u8],
        place: u64,
        out: &mut [u8],
        report: &mut StepReport,
    ) -> i32 {
        // SAFETY: each slice has as many elements as its length says, `report` is a struct of the header, and no argument
        // that is written overlaps another.
        unsafe {
            feddurzai_step_call(bits, old_ip, bytes.as_ptr(), bytes.len(), place, out.as_mut_ptr(), out.len(), report)
        }
    }

    pub fn step_unlisted(
        self,
        bits: u32,
        old_ip: u64,
        bytes: &[u8],
        place: u64,
        out: &mut [u8],
        report: &mut StepReport,
    ) -> i32 {
        // SAFETY: as for `step`.
        unsafe {
            feddurzai_step_unlisted(
                bits,
                old_ip,
                bytes.as_ptr(),
                bytes.len(),
                place,
                out.as_mut_ptr(),
                out.len(),
                report,
            )
        }
    }

    pub fn flow(self, bits: u32, base: u64, bytes: &[u8], starts: &mut [u32], leaders: &mut [u32]) -> i32 {
        // SAFETY: each slice has as many elements as its length says, and no argument that is written overlaps another.
        unsafe {
            feddurzai_flow(
                bits,
                base,
                bytes.as_ptr(),
                bytes.len(),
                starts.as_mut_ptr(),
                starts.len(),
                leaders.as_mut_ptr(),
                leaders.len(),
            )
        }
    }

    pub fn flow_from(self, bits: u32, base: u64, bytes: &[u8], entries: &[u32], out: FlowOut<'_>) -> i32 {
        // SAFETY: each slice has as many elements as its length says, and no argument that is written overlaps another.
        unsafe {
            feddurzai_flow_from(
                bits,
                base,
                bytes.as_ptr(),
                bytes.len(),
                entries.as_ptr(),
                entries.len(),
                out.starts.as_mut_ptr(),
                out.starts.len(),
                out.leaders.as_mut_ptr(),
                out.leaders.len(),
                out.kinds.as_mut_ptr(),
                out.kinds.len(),
            )
        }
    }

    pub fn flow_unlisted(self, bits: u32, base: u64, bytes: &[u8], entries: &[u32], out: FlowOut<'_>) -> i32 {
        // SAFETY: each slice has as many elements as its length says, and no argument that is written overlaps another.
        unsafe {
            feddurzai_flow_unlisted(
                bits,
                base,
                bytes.as_ptr(),
                bytes.len(),
                entries.as_ptr(),
                entries.len(),
                out.starts.as_mut_ptr(),
                out.starts.len(),
                out.leaders.as_mut_ptr(),
                out.leaders.len(),
                out.kinds.as_mut_ptr(),
                out.kinds.len(),
            )
        }
    }

    pub fn detour(
        self,
        bits: u32,
        ip: u64,
        code: &[u8],
        to: u64,
        place: u64,
        start: u32,
        patch: &mut [u8],
        trampoline: &mut [u8],
        report: &mut DetourReport,
    ) -> i32 {
        // SAFETY: each slice has as many elements as its length says, `report` is a struct of the header, and no argument
        // that is written overlaps another.
        unsafe {
            feddurzai_detour(
                bits,
                ip,
                code.as_ptr(),
                code.len(),
                to,
                place,
                start,
                patch.as_mut_ptr(),
                patch.len(),
                trampoline.as_mut_ptr(),
                trampoline.len(),
                report,
            )
        }
    }

    pub fn detour_unlisted(
        self,
        bits: u32,
        ip: u64,
        code: &[u8],
        to: u64,
        place: u64,
        start: u32,
        patch: &mut [u8],
        trampoline: &mut [u8],
        report: &mut DetourReport,
    ) -> i32 {
        // SAFETY: as for `detour`.
        unsafe {
            feddurzai_detour_unlisted(
                bits,
                ip,
                code.as_ptr(),
                code.len(),
                to,
                place,
                start,
                patch.as_mut_ptr(),
                patch.len(),
                trampoline.as_mut_ptr(),
                trampoline.len(),
                report,
            )
        }
    }

    pub fn detour_with(
        self,
        bits: u32,
        ip: u64,
        code: &[u8],
        to: u64,
        place: u64,
        start: u32,
        rules: u32,
        entries: &[u32],
        out: HookOut<'_>,
        report: &mut HookReport,
    ) -> i32 {
        // SAFETY: each slice has as many elements as its length says, `report` is a struct of the header, and no argument
        // that is written overlaps another.
        unsafe {
            feddurzai_detour_with(
                bits,
                ip,
                code.as_ptr(),
                code.len(),
                to,
                place,
                start,
                rules,
                entries.as_ptr(),
                entries.len(),
                out.patch.as_mut_ptr(),
                out.patch.len(),
                out.trampoline.as_mut_ptr(),
                out.trampoline.len(),
                out.moved.as_mut_ptr(),
                out.moved.len(),
                report,
            )
        }
    }

    pub fn detour_len(self, bits: u32, ip: u64, code: &[u8], to: u64, start: u32, rules: u32) -> i32 {
        // SAFETY: the slice has as many elements as its length says, and nothing is written.
        unsafe { feddurzai_detour_len(bits, ip, code.as_ptr(), code.len(), to, start, rules) }
    }

    pub fn detour_endbr(
        self,
        bits: u32,
        ip: u64,
        code: &[u8],
        to: u64,
        place: u64,
        start: u32,
        rules: u32,
        entries: &[u32],
        out: HookOut<'_>,
        report: &mut KeptReport,
    ) -> i32 {
        // SAFETY: each slice has as many elements as its length says, `report` is a struct of the header, and no argument
        // that is written overlaps another.
        unsafe {
            feddurzai_detour_endbr(
                bits,
                ip,
                code.as_ptr(),
                code.len(),
                to,
                place,
                start,
                rules,
                entries.as_ptr(),
                entries.len(),
                out.patch.as_mut_ptr(),
                out.patch.len(),
                out.trampoline.as_mut_ptr(),
                out.trampoline.len(),
                out.moved.as_mut_ptr(),
                out.moved.len(),
                report,
            )
        }
    }

    pub fn detour_padding(
        self,
        bits: u32,
        ip: u64,
        padding: &[u8],
        code: &[u8],
        to: u64,
        place: u64,
        start: u32,
        rules: u32,
        entries: &[u32],
        jump: &mut [u8],
        out: HookOut<'_>,
        report: &mut PaddedReport,
    ) -> i32 {
        // SAFETY: each slice has as many elements as its length says, `report` is a struct of the header, and no argument
        // that is written overlaps another.
        unsafe {
            feddurzai_detour_padding(
                bits,
                ip,
                padding.as_ptr(),
                padding.len(),
                code.as_ptr(),
                code.len(),
                to,
                place,
                start,
                rules,
                entries.as_ptr(),
                entries.len(),
                jump.as_mut_ptr(),
                jump.len(),
                out.patch.as_mut_ptr(),
                out.patch.len(),
                out.trampoline.as_mut_ptr(),
                out.trampoline.len(),
                out.moved.as_mut_ptr(),
                out.moved.len(),
                report,
            )
        }
    }

    pub fn look(
        self,
        bits: u32,
        ip: u64,
        code: &[u8],
        entries: &[u32],
        taken: u64,
        moved: &[u32],
        start: u32,
        view: &mut View,
    ) -> i32 {
        // SAFETY: each slice has as many elements as its length says, and `view` is a struct of the header that overlaps no
        // other argument.
        unsafe {
            feddurzai_look(
                bits,
                ip,
                code.as_ptr(),
                code.len(),
                entries.as_ptr(),
                entries.len(),
                taken,
                moved.as_ptr(),
                moved.len(),
                start,
                view,
            )
        }
    }
}
