//! Hooks.

use crate::error::{Error, Place};
use crate::moving::size_of;
use crate::sight::View;
use crate::sys::{self, HookOut, Library, MAX_PATCH};
use alloc::vec;
use alloc::vec::Vec;

/// The target of a moved branch that went to the function's own start.
///
/// ```
/// use feddurzai::{Detour, DetourStart};
///
/// // test ecx, ecx; jne to the start; xor eax, eax; nop; ret
/// let function = b"\x85\xC9\x75\xFC\x31\xC0\x90\xC3";
/// let looping = Detour::new(64, 0x1000, function, 0x2000, 0x3000, DetourStart::Moved)?;
/// assert_eq!(looping.trampoline()[..4], [0x85, 0xC9, 0x75, 0xFC]);
/// # Ok::<(), feddurzai::Error>(())
/// ```
#[derive(Clone, Copy, Debug, PartialEq, Eq, Hash)]
#[non_exhaustive]
pub enum DetourStart {
    /// The moved first instruction: a loop stays in the trampoline.
    Moved = 0,
    /// The start, and so the replacement: a recursive call is hooked too.
    Hooked = 1,
}

/// The form of the jump from the function to the replacement.
///
/// ```
/// use feddurzai::{Detour, DetourForm, DetourStart};
///
/// // sub rsp, 0x18; xor eax, eax; ret, with the replacement out of reach
/// let function = b"\x48\x83\xEC\x18\x31\xC0\xC3";
/// let detour = Detour::new(64, 0x1000, function, 0x7fff_0000_0000, 0x3000, DetourStart::Moved)?;
/// assert_eq!(detour.form(), DetourForm::Relay);
/// # Ok::<(), feddurzai::Error>(())
/// ```
#[derive(Clone, Copy, Debug, PartialEq, Eq, Hash)]
#[non_exhaustive]
pub enum DetourForm {
    /// 5 bytes (3 in 16-bit code): a near jump.
    Near,
    /// 64-bit mode, 5 bytes: a near jump to a relay after the trampoline.
    Relay,
    /// 64-bit mode, 14 bytes: `jmp [rip]`, and the address in the 8 bytes that follow.
    Absolute,
}

/// Both parts of a hook. The patch overwrites the first bytes of the function and jumps to the replacement. The
/// trampoline runs the overwritten instructions and continues after them, so calling it is calling the original
/// function.
///
/// Writing the two into the program is left to the caller; `docs/hooks.md` of the sources says what a hook must take
/// care of.
///
/// ```
/// use feddurzai::{Detour, DetourStart, Error};
///
/// // sub rsp, 0x18; xor eax, eax; ret
/// let function = b"\x48\x83\xEC\x18\x31\xC0\xC3";
/// let detour = Detour::new(64, 0x1000, function, 0x2000, 0x3000, DetourStart::Moved)?;
/// // jmp 0x2000; int3
/// assert_eq!(detour.patch(), b"\xE9\xFB\x0F\x00\x00\xCC");
/// // sub, xor, jmp 0x1006
/// assert_eq!(detour.trampoline(), b"\x48\x83\xEC\x18\x31\xC0\xE9\xFB\xDF\xFF\xFF");
/// assert_eq!(detour.jump_back(), Some(6));
///
/// // xor eax, eax; inc eax; cmp eax, edi; jb to the second; ret: the loop enters the overwritten bytes
/// let refused = Detour::new(64, 0x1000, b"\x31\xC0\xFF\xC0\x39\xF8\x72\xFA\xC3", 0x2000, 0x3000, DetourStart::Moved);
/// assert_eq!(refused.err(), Some(Error::Entered { from: 6, to: 2 }));
/// # Ok::<(), Error>(())
/// ```
#[derive(Clone, Debug, PartialEq, Eq)]
pub struct Detour {
    patch: Vec<u8>,
    trampoline: Vec<u8>,
    jump_back: usize,
    slots_at: usize,
    relay_at: usize,
    form: DetourForm,
}

/// What [`Detour::with_rules`] asks of a function besides what every hook does. By default there are no further entries, and
/// no rule is asked for.
///
/// ```
/// let rules = feddurzai::DetourRules { entries: &[0x40, 0x91], whole: true, ..Default::default() };
/// assert!(rules.whole && !rules.returns && feddurzai::DetourRules::default().entries.is_empty());
/// ```
#[derive(Clone, Copy, Debug, Default, PartialEq, Eq, Hash)]
pub struct DetourRules<'a> {
    /// Further offsets at which control comes in: targets of jump tables, landing pads, a `.cold` part. Those outside the
    /// code are ignored.
    pub entries: &'a [u32],
    /// Whether a function is refused of which not everything is seen.
    pub whole: bool,
    /// Whether a near CALL that is the last moved instruction pushes the address behind it in the function and jumps, where
    /// it can: what it calls sees the return address that it always saw. Not for a process with a shadow stack (CET).
    pub returns: bool,
    /// Whether any other moved call is refused: what it calls would see a return address in the trampoline.
    pub no_calls: bool,
}

/// A moved instruction of a detour.
///
/// ```
/// use feddurzai::{Detour, DetourRules, DetourStart, MovedStart};
///
/// // je to the end; mov rcx, rax; two nops; ret: in the trampoline the branch has 6 bytes
/// let code = b"\x74\x05\x48\x89\xC1\x90\x90\xC3";
/// let seen = Detour::with_rules(64, 0x1000, code, 0x2000, 0x3000, DetourStart::Moved, DetourRules::default())?;
/// assert_eq!(seen.moved, [MovedStart { start: 0, place: 0 }, MovedStart { start: 2, place: 6 }]);
/// # Ok::<(), feddurzai::Error>(())
/// ```
#[derive(Clone, Copy, Debug, PartialEq, Eq, Hash)]
pub struct MovedStart {
    /// The offset at which it begins in the function.
    pub start: u64,
    /// The offset at which its image begins in the trampoline.
    pub place: u64,
}

/// A detour by rules, and what was seen of the function.
///
/// ```
/// use feddurzai::{Detour, DetourRules, DetourStart, Sight};
///
/// // sub rsp, 0x18; xor eax, eax; ret
/// let function = b"\x48\x83\xEC\x18\x31\xC0\xC3";
/// let seen = Detour::with_rules(64, 0x1000, function, 0x2000, 0x3000, DetourStart::Moved, DetourRules::default())?;
/// assert_eq!((seen.detour.patch().len(), seen.moved.len(), seen.view.sight), (6, 2, Sight::Whole));
/// # Ok::<(), feddurzai::Error>(())
/// ```
#[derive(Clone, Debug, PartialEq, Eq)]
#[non_exhaustive]
pub struct SeenDetour {
    /// The detour.
    pub detour: Detour,
    /// The moved instructions, in order.
    pub moved: Vec<MovedStart>,
    /// What was seen.
    pub view: View,
    /// The offset of the first call that is moved as it is, if there is one.
    pub call: Option<u64>,
}

/// A detour that keeps an ENDBR at the start of the function, as [`Detour::keeping_endbr`] makes it.
#[derive(Clone, Debug, PartialEq, Eq)]
#[non_exhaustive]
pub struct KeptDetour {
    /// How many first bytes of the function stay, 4 or 0. The patch is for the byte behind them.
    pub kept: u64,
    /// The bytes to write to the place of the trampoline: the kept bytes, and the trampoline of `seen`.
    pub trampoline: Vec<u8>,
    /// The detour of the function behind the kept bytes, and what was seen. Its offsets count from there.
    pub seen: SeenDetour,
}

/// A detour through padding, as [`Detour::through_padding`] makes it.
#[derive(Clone, Debug, PartialEq, Eq)]
#[non_exhaustive]
pub struct PaddedDetour {
    /// The near jump: write it first, over the last bytes of the padding.
    pub jump: Vec<u8>,
    /// The detour by the short jump to it, and what was seen.
    pub seen: SeenDetour,
}

/// The number of the rules for the library.
fn rule_bits(rules: &DetourRules<'_>) -> u32 {
    u32::from(rules.whole) + 2 * u32::from(rules.returns) + 4 * u32::from(rules.no_calls)
}

impl SeenDetour {
    /// What was made and seen, by the report; the list of moved instructions may be longer.
    fn of(
        patch: Vec<u8>,
        trampoline: Vec<u8>,
        mut moved: Vec<sys::MovedStart>,
        report: &sys::HookReport,
    ) -> Result<SeenDetour, Error> {
        moved.truncate(size_of(report.moved)?);
        Ok(SeenDetour {
            detour: Detour::of(patch, trampoline, &report.detour)?,
            moved: moved.iter().map(|one| MovedStart { start: one.start, place: one.place }).collect(),
            view: View::of(&report.view),
            call: Some(report.call).filter(|&at| at < report.detour.taken),
        })
    }
}

impl Detour {
    /// Makes a hook of the function at `ip` whose bytes from the first are `code`, at most 1 MiB. `to` is the address of
    /// the replacement, and `place` the address at which the trampoline will be placed. Within 2 gigabytes of the function
    /// the jump has 5 bytes, wherever the replacement is.
    ///
    /// Give the whole function: a branch into the overwritten bytes is found in these bytes alone, and only where control
    /// can be followed. Code that follows an indirect jump may be missed.
    ///
    /// # Errors
    ///
    /// [`Error::BadMode`], [`Error::TooLarge`], [`Error::Invalid`], [`Error::TooShort`], [`Error::Small`],
    /// [`Error::Ends`], [`Error::Entered`], [`Error::Wraps`], [`Error::TooFar`] or [`Error::NoMemory`].
    pub fn new(bitness: u32, ip: u64, code: &[u8], to: u64, place: u64, start: DetourStart) -> Result<Detour, Error> {
        let library = Library::get()?;
        Detour::by(|patch, trampoline, report| {
            library.detour(bitness, ip, code, to, place, start as u32, patch, trampoline, report)
        })
    }

    /// Makes a hook as [`Detour::new`] does, also where the opcode table leaves out some instructions of the function, as far
    /// as `feddurzai_measure` measures them. One that is overwritten is moved whole, with its number at RIP set so
    /// that it refers to the same address, or to the moved instruction that began there. Control is followed through such
    /// instructions, and from XBEGIN also to its target.
    ///
    /// ```
    /// use feddurzai::{Detour, DetourStart};
    ///
    /// // vpxord zmm0, zmm0, [rip+0x10], which is 0x101a; ret
    /// let code = b"\x62\xF1\x7D\x48\xEF\x05\x10\x00\x00\x00\xC3";
    /// let hook = Detour::unlisted(64, 0x1000, code, 0x2000, 0x3000, DetourStart::Moved)?;
    /// // vpxord zmm0, zmm0, [rip-0x1ff0]; jmp 0x100a
    /// assert_eq!(hook.trampoline(), b"\x62\xF1\x7D\x48\xEF\x05\x10\xE0\xFF\xFF\xE9\xFB\xDF\xFF\xFF");
    /// # Ok::<(), feddurzai::Error>(())
    /// ```
    ///
    /// # Errors
    ///
    /// Those of [`Detour::new`].
    pub fn unlisted(
        bitness: u32,
        ip: u64,
        code: &[u8],
        to: u64,
        place: u64,
        start: DetourStart,
    ) -> Result<Detour, Error> {
        let library = Library::get()?;
        Detour::by(|patch, trampoline, report| {
            library.detour_unlisted(bitness, ip, code, to, place, start as u32, patch, trampoline, report)
        })
    }

    /// The hook that a call writes: a first one reports the size of the trampoline for the second.
    fn by(call: impl Fn(&mut [u8], &mut [u8], &mut sys::DetourReport) -> i32) -> Result<Detour, Error> {
        let (mut patch, mut trampoline) = (vec![0; MAX_PATCH], Vec::new());
        let mut report = sys::DetourReport::default();
        let mut call = |trampoline: &mut [u8], report: &mut sys::DetourReport| call(&mut patch, trampoline, report);
        let mut status = call(&mut trampoline, &mut report);
        if status == -6 {
            trampoline = vec![0; size_of(report.bytes)?];
            status = call(&mut trampoline, &mut report);
        }
        if status < 0 {
            return Err(Detour::refusal(status, &report));
        }
        Detour::of(patch, trampoline, &report)
    }

    /// Makes a hook by rules: as [`Detour::new`] does, but an operand at RIP or EIP keeps its address, even if that is in the
    /// overwritten bytes. It looks at the function as [`look`](crate::look) does, and refuses the hook if control is seen to
    /// enter the overwritten bytes. `docs/hooks.md` of the sources says what the rules are.
    ///
    /// ```
    /// use feddurzai::{Detour, DetourRules, DetourStart, Error, SightEnd};
    ///
    /// // mov rax, [rdi]; jmp [8*rax+0x2000]; inc rdi; jmp to the first jump; ret
    /// let code = b"\x48\x8B\x07\xFF\x24\xC5\x00\x20\x00\x00\x48\xFF\xC7\xEB\xF4\xC3";
    /// let by = |rules| Detour::with_rules(64, 0x1000, code, 0x2000, 0x3000, DetourStart::Moved, rules).err();
    /// assert_eq!(by(DetourRules::default()), None);
    /// // sight ends at the jump by the table
    /// let whole = DetourRules { whole: true, ..DetourRules::default() };
    /// assert_eq!(by(whole), Some(Error::Unseen { at: 3, why: SightEnd::IndirectJump }));
    /// // the table has the offset 10, from where control comes back to that jump
    /// let known = DetourRules { entries: &[10], ..DetourRules::default() };
    /// assert_eq!(by(known), Some(Error::Entered { from: 13, to: 3 }));
    /// ```
    ///
    /// # Errors
    ///
    /// Those of [`Detour::new`]; then [`Error::Overlaps`], [`Error::Calls`], [`Error::Entered`] (an entry within the
    /// overwritten bytes has its own offset twice) and [`Error::Unseen`].
    pub fn with_rules(
        bitness: u32,
        ip: u64,
        code: &[u8],
        to: u64,
        place: u64,
        start: DetourStart,
        rules: DetourRules<'_>,
    ) -> Result<SeenDetour, Error> {
        let library = Library::get()?;
        // a patch has at most MAX_PATCH bytes, and moves no more instructions
        let (mut patch, mut moved) = (vec![0; MAX_PATCH], vec![sys::MovedStart::ZERO; MAX_PATCH]);
        let mut trampoline = Vec::new();
        let rule_bits = rule_bits(&rules);
        let mut report = sys::HookReport::default();
        let mut call = |trampoline: &mut [u8], report: &mut sys::HookReport| {
            let out = HookOut { patch: &mut patch, trampoline, moved: &mut moved };
            library.detour_with(bitness, ip, code, to, place, start as u32, rule_bits, rules.entries, out, report)
        };
        let mut status = call(&mut trampoline, &mut report);
        if status == -6 {
            trampoline = vec![0; size_of(report.detour.bytes)?];
            status = call(&mut trampoline, &mut report);
        }
        if status < 0 {
            return Err(Detour::refusal(status, &report.detour));
        }
        SeenDetour::of(patch, trampoline, moved, &report)
    }

    /// Returns how many bytes are enough for the trampoline of a hook by these rules at any place, at most 400, so that room
    /// for it can be reserved first. It is 0 if there is no hook at any place. For [`keeping_endbr`](Detour::keeping_endbr)
    /// reserve 4 bytes more.
    ///
    /// ```
    /// use feddurzai::{Detour, DetourRules, DetourStart};
    ///
    /// // sub rsp, 0x18; xor eax, eax; ret
    /// let function = b"\x48\x83\xEC\x18\x31\xC0\xC3";
    /// assert_eq!(Detour::room(64, 0x1000, function, 0x2000, DetourStart::Moved, DetourRules::default())?, 27);
    /// # Ok::<(), feddurzai::Error>(())
    /// ```
    ///
    /// # Errors
    ///
    /// [`Error::BadMode`], [`Error::TooLarge`] or [`Error::NoMemory`].
    pub fn room(
        bitness: u32,
        ip: u64,
        code: &[u8],
        to: u64,
        start: DetourStart,
        rules: DetourRules<'_>,
    ) -> Result<usize, Error> {
        let said = Library::get()?.detour_len(bitness, ip, code, to, start as u32, rule_bits(&rules));
        usize::try_from(said).map_err(|_| Error::of(said, Place { at: 0, address: 0, count: 0 }))
    }

    /// Makes a hook by rules that keeps an ENDBR64 (64-bit mode) or ENDBR32 (32-bit mode) at the start of the function, so that
    /// calls through pointers keep working under indirect-branch tracking. The trampoline begins with it too. A function that
    /// begins with none gets the hook of [`with_rules`](Detour::with_rules).
    ///
    /// ```
    /// use feddurzai::{Detour, DetourRules, DetourStart};
    ///
    /// // endbr64; sub rsp, 0x18; xor eax, eax; ret
    /// let function = b"\xF3\x0F\x1E\xFA\x48\x83\xEC\x18\x31\xC0\xC3";
    /// let kept = Detour::keeping_endbr(64, 0x1000, function, 0x2000, 0x3000, DetourStart::Moved, DetourRules::default())?;
    /// assert_eq!((kept.kept, kept.seen.detour.patch()), (4, &b"\xE9\xF7\x0F\x00\x00\xCC"[..]));
    /// assert_eq!(kept.trampoline[..4], function[..4]);
    /// # Ok::<(), feddurzai::Error>(())
    /// ```
    ///
    /// # Errors
    ///
    /// Those of [`with_rules`](Detour::with_rules), with offsets from the function's first byte; [`Error::Entered`] first if
    /// control is seen to enter the kept bytes.
    pub fn keeping_endbr(
        bitness: u32,
        ip: u64,
        code: &[u8],
        to: u64,
        place: u64,
        start: DetourStart,
        rules: DetourRules<'_>,
    ) -> Result<KeptDetour, Error> {
        let library = Library::get()?;
        let (mut patch, mut moved) = (vec![0; MAX_PATCH], vec![sys::MovedStart::ZERO; MAX_PATCH]);
        let mut trampoline = Vec::new();
        let mut report = sys::KeptReport::default();
        let mut call = |trampoline: &mut [u8], report: &mut sys::KeptReport| {
            let out = HookOut { patch: &mut patch, trampoline, moved: &mut moved };
            library.detour_endbr(
                bitness,
                ip,
                code,
                to,
                place,
                start as u32,
                rule_bits(&rules),
                rules.entries,
                out,
                report,
            )
        };
        let mut status = call(&mut trampoline, &mut report);
        if status == -6 {
            trampoline = vec![0; size_of(report.kept)? + size_of(report.hook.detour.bytes)?];
            status = call(&mut trampoline, &mut report);
        }
        if status < 0 {
            return Err(Detour::refusal(status, &report.hook.detour).behind(report.kept));
        }
        let tail = trampoline[size_of(report.kept)?..].to_vec();
        Ok(KeptDetour { kept: report.kept, trampoline, seen: SeenDetour::of(patch, tail, moved, &report.hook)? })
    }

    /// Makes a hook by rules of a function that is too small for the near jump but has padding in front of it: a near jump
    /// over the last bytes of the padding, and over the first bytes of the function a short jump to it. `padding` are the bytes
    /// directly in front of the function; the caller knows that they belong to no function.
    ///
    /// ```
    /// use feddurzai::{Detour, DetourRules, DetourStart};
    ///
    /// // mov eax, edi; ret
    /// let (padding, function) = ([0xCC; 5], b"\x89\xF8\xC3");
    /// let rules = DetourRules::default();
    /// let made = Detour::through_padding(64, 0x1000, &padding, function, 0x2000, 0x3000, DetourStart::Moved, rules)?;
    /// // jmp 0x2000, for 0xFFB; jmp short 0xFFB
    /// assert_eq!((&made.jump[..], made.seen.detour.patch()), (&b"\xE9\x00\x10\x00\x00"[..], &b"\xEB\xF9"[..]));
    /// # Ok::<(), feddurzai::Error>(())
    /// ```
    ///
    /// # Errors
    ///
    /// Those of [`with_rules`](Detour::with_rules); first [`Error::Padding`], and [`Error::Entered`] with offsets from the first
    /// byte of the padding if control is seen to go there. [`Error::TooFar`] also if the near jump reaches neither the
    /// replacement nor a relay.
    #[allow(clippy::too_many_arguments)]
    pub fn through_padding(
        bitness: u32,
        ip: u64,
        padding: &[u8],
        code: &[u8],
        to: u64,
        place: u64,
        start: DetourStart,
        rules: DetourRules<'_>,
    ) -> Result<PaddedDetour, Error> {
        let library = Library::get()?;
        let (mut patch, mut moved) = (vec![0; MAX_PATCH], vec![sys::MovedStart::ZERO; MAX_PATCH]);
        let (mut jump, mut trampoline) = (vec![0; 5], Vec::new());
        let (start, bits) = (start as u32, rule_bits(&rules));
        let mut report = sys::PaddedReport::default();
        let mut call = |trampoline: &mut [u8], report: &mut sys::PaddedReport| {
            let out = HookOut { patch: &mut patch, trampoline, moved: &mut moved };
            library.detour_padding(
                bitness,
                ip,
                padding,
                code,
                to,
                place,
                start,
                bits,
                rules.entries,
                &mut jump,
                out,
                report,
            )
        };
        let mut status = call(&mut trampoline, &mut report);
        if status == -6 {
            trampoline = vec![0; size_of(report.hook.detour.bytes)?];
            status = call(&mut trampoline, &mut report);
        }
        if status < 0 {
            return Err(Detour::refusal(status, &report.hook.detour));
        }
        jump.truncate(size_of(report.jump)?);
        Ok(PaddedDetour { jump, seen: SeenDetour::of(patch, trampoline, moved, &report.hook)? })
    }

    /// The error of a negative status.
    fn refusal(status: i32, report: &sys::DetourReport) -> Error {
        Error::of(status, Place { at: report.at, address: report.target, count: 0 })
    }

    /// The detour of a patch, whose buffer may be longer, a trampoline and their report.
    fn of(mut patch: Vec<u8>, trampoline: Vec<u8>, report: &sys::DetourReport) -> Result<Detour, Error> {
        patch.truncate(size_of(report.taken)?);
        let form = match report.form {
            2 => DetourForm::Relay,
            3 => DetourForm::Absolute,
            _ => DetourForm::Near,
        };
        Ok(Detour {
            patch,
            jump_back: size_of(report.jump_back)?,
            slots_at: size_of(report.slots_at)?,
            relay_at: size_of(report.relay_at)?,
            trampoline,
            form,
        })
    }

    /// The bytes to write over the first bytes of the function.
    #[must_use]
    pub fn patch(&self) -> &[u8] {
        &self.patch
    }

    /// The bytes to write to the place of the trampoline.
    #[must_use]
    pub fn trampoline(&self) -> &[u8] {
        &self.trampoline
    }

    /// The form of the jump to the replacement.
    #[must_use]
    pub const fn form(&self) -> DetourForm {
        self.form
    }

    /// An offset in the trampoline; an absent part has the offset of the end.
    fn part(&self, offset: usize) -> Option<usize> {
        Some(offset).filter(|&offset| offset < self.trampoline.len())
    }

    /// The offset of the jump back in the trampoline, `None` if control ends in the overwritten instructions.
    #[must_use]
    pub fn jump_back(&self) -> Option<usize> {
        self.part(self.jump_back)
    }

    /// The offset of the first slot of 8 bytes in the trampoline, `None` if there are none.
    #[must_use]
    pub fn slots_at(&self) -> Option<usize> {
        self.part(self.slots_at)
    }

    /// The offset of the relay in the trampoline, `None` if there is none.
    #[must_use]
    pub fn relay_at(&self) -> Option<usize> {
        self.part(self.relay_at)
    }
}
