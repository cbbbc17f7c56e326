//! What is seen of a function before a hook overwrites its first bytes.

#[cfg(feature = "alloc")]
use crate::error::{taken, Error};
#[cfg(feature = "alloc")]
use crate::sys::{self, Library};

/// Why sight of a function ends at an offset.
///
/// ```
/// use feddurzai::{look, Sight, SightEnd, StartRule};
///
/// // jmp rax, and three nops that nothing reaches
/// let view = look(64, 0x1000, b"\xFF\xE0\x90\x90\x90", &[], 5, &[0], StartRule::Closed)?;
/// assert_eq!(view.sight, Sight::Ends { at: 0, why: SightEnd::IndirectJump });
/// assert_eq!(SightEnd::IndirectJump.to_string(), "control jumps to an address in a register or in memory");
/// # Ok::<(), feddurzai::Error>(())
/// ```
#[derive(Clone, Copy, Debug, PartialEq, Eq, Hash)]
#[non_exhaustive]
pub enum SightEnd {
    /// No instruction of the table begins there.
    NotRead,
    /// A jump to an address in a register or in memory.
    IndirectJump,
    /// The code ends within the instruction, or control runs off its end.
    Ended,
}

impl SightEnd {
    /// The cause of a number of the library.
    pub(crate) fn of(number: u64) -> SightEnd {
        match number {
            1 => SightEnd::NotRead,
            2 => SightEnd::IndirectJump,
            _ => SightEnd::Ended,
        }
    }
}

impl core::fmt::Display for SightEnd {
    fn fmt(&self, f: &mut core::fmt::Formatter<'_>) -> core::fmt::Result {
        f.write_str(match self {
            SightEnd::NotRead => "no instruction of the table begins",
            SightEnd::IndirectJump => "control jumps to an address in a register or in memory",
            SightEnd::Ended => "the code ends",
        })
    }
}

/// How far control is seen.
///
/// ```
/// use feddurzai::{look, Sight, StartRule};
///
/// // sub rsp, 0x18; xor eax, eax; ret
/// let view = look(64, 0x1000, b"\x48\x83\xEC\x18\x31\xC0\xC3", &[], 6, &[0, 4], StartRule::Closed)?;
/// assert_eq!(view.sight, Sight::Whole);
/// # Ok::<(), feddurzai::Error>(())
/// ```
#[cfg(feature = "alloc")]
#[derive(Clone, Copy, Debug, PartialEq, Eq, Hash)]
#[non_exhaustive]
pub enum Sight {
    /// Everything that control reaches is seen.
    Whole,
    /// This is the first reached offset at which sight ends.
    Ends {
        /// The offset.
        at: u64,
        /// Why.
        why: SightEnd,
    },
}

/// Control that goes from the instruction at one offset to another offset.
///
/// ```
/// use feddurzai::{look, StartRule};
///
/// // mov rax, [rdi]; mov rcx, rax; jmp to the second one; ret
/// let view = look(64, 0x1000, b"\x48\x8B\x07\x48\x89\xC1\xEB\xFB\xC3", &[], 6, &[0, 3], StartRule::Closed)?;
/// assert_eq!(view.entered.map(|passage| (passage.from, passage.target)), Some((6, 3)));
/// # Ok::<(), feddurzai::Error>(())
/// ```
#[cfg(feature = "alloc")]
#[derive(Clone, Copy, Debug, PartialEq, Eq, Hash)]
pub struct Passage {
    /// The offset that control comes from.
    pub from: u64,
    /// The offset that control goes to.
    pub target: u64,
}

/// Whether control after the overwritten bytes may go back to the start of the function.
///
/// ```
/// use feddurzai::{look, Passage, StartRule};
///
/// // cmp byte ptr [rdi], 0; je to the end; inc rdi; jmp to the start; ret
/// let code = b"\x80\x3F\x00\x74\x05\x48\xFF\xC7\xEB\xF6\xC3";
/// let entered = |start| look(64, 0x1000, code, &[], 5, &[0, 3], start).map(|view| view.entered);
/// assert_eq!(entered(StartRule::Open)?, None);
/// assert_eq!(entered(StartRule::Closed)?, Some(Passage { from: 8, target: 0 }));
/// # Ok::<(), feddurzai::Error>(())
/// ```
#[cfg(feature = "alloc")]
#[derive(Clone, Copy, Debug, PartialEq, Eq, Hash)]
#[non_exhaustive]
pub enum StartRule {
    /// It may.
    Open = 0,
    /// Only calls may: a loop to the start would reach the replacement.
    Closed = 1,
}

/// What is seen of a function whose first bytes a hook overwrites. Offsets count from its first byte.
///
/// ```
/// use feddurzai::{look, Passage, Sight, SightEnd, StartRule};
///
/// // mov rax, [rdi]; mov rcx, rax; an instruction that the table does not have; jmp to the second one; ret
/// let code = b"\x48\x8B\x07\x48\x89\xC1\x62\xF1\x7C\x48\x28\xC1\xEB\xF5\xC3";
/// let view = look(64, 0x1000, code, &[], 6, &[0, 3], StartRule::Closed)?;
/// assert_eq!(view.sight, Sight::Ends { at: 6, why: SightEnd::NotRead });
/// assert_eq!((view.entered, view.inside), (None, None));
/// assert_eq!(view.suspect, Some(Passage { from: 12, target: 3 }));
/// # Ok::<(), feddurzai::Error>(())
/// ```
#[cfg(feature = "alloc")]
#[derive(Clone, Copy, Debug, PartialEq, Eq, Hash)]
#[non_exhaustive]
pub struct View {
    /// How far control is seen from the first byte and from the entries.
    pub sight: Sight,
    /// The first passage from a reached offset into the overwritten bytes.
    pub entered: Option<Passage>,
    /// The least entry within the overwritten bytes after the first one.
    pub inside: Option<u64>,
    /// If sight ends: the first passage into the overwritten bytes from an offset that was not reached. It may be data.
    pub suspect: Option<Passage>,
}

#[cfg(feature = "alloc")]
impl View {
    /// The view of a struct of the library.
    pub(crate) fn of(view: &sys::View) -> View {
        let passage = |is_there, from, target| if is_there == 0 { None } else { Some(Passage { from, target }) };
        View {
            sight: match view.sight {
                0 => Sight::Whole,
                why => Sight::Ends { at: view.sight_at, why: SightEnd::of(u64::from(why)) },
            },
            entered: passage(view.is_entered, view.entered_from, view.entered_target),
            inside: Some(view.inside).filter(|_| view.has_inside != 0),
            suspect: passage(view.has_suspect, view.suspect_from, view.suspect_target),
        }
    }
}

/// Looks at the function at `ip` whose bytes from the first are `code`, at most 1 MiB, and whose first `taken_len` bytes a hook
/// overwrites: how far control can be followed, and whether it enters those bytes. `docs/hooks.md` of the sources says what
/// is seen. [`Detour::with_rules`](crate::Detour::with_rules) looks at the function of a detour.
///
/// `entries` are further offsets at which control comes in: targets of jump tables, landing pads, a `.cold` part. Those
/// outside the code are ignored. `moved_starts` are the offsets at which the instructions begin that the hook moves to its
/// trampoline: control may go from one of them to another.
///
/// # Errors
///
/// [`Error::BadMode`], [`Error::TooLarge`] or [`Error::NoMemory`].
#[cfg(feature = "alloc")]
pub fn look(
    bitness: u32,
    ip: u64,
    code: &[u8],
    entries: &[u32],
    taken_len: usize,
    moved_starts: &[u32],
    start: StartRule,
) -> Result<View, Error> {
    let mut view = sys::View::default();
    let library = Library::get()?;
    taken(library.look(bitness, ip, code, entries, taken_len as u64, moved_starts, start as u32, &mut view))?;
    Ok(View::of(&view))
}
