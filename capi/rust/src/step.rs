//! Displaced single stepping.

use crate::error::{taken, Error, Place};
use crate::instruction::{checked_mode, mask_of};
use crate::region::Region;
use crate::sys::{self, Library, MAX_STEP};
use alloc::vec;
use alloc::vec::Vec;

/// The code with which a debugger runs one instruction at another address while its breakpoint stays: the instruction,
/// moved there, and a jump back to the address after it.
///
/// ```
/// use feddurzai::step;
///
/// // call 0x2000 at 0x1000, to be stepped at 0x1800: call 0x2000; jmp 0x1005
/// let made = step(64, 0x1000, b"\xE8\xFB\x0F\x00\x00", 0x1800)?;
/// assert_eq!(made.code, b"\xE8\xFB\x07\x00\x00\xE9\xFB\xF7\xFF\xFF");
/// assert_eq!((made.done_at, made.back_at, made.len), (5, 5, 5));
/// # Ok::<(), feddurzai::Error>(())
/// ```
#[derive(Clone, Debug, PartialEq, Eq, Hash)]
#[non_exhaustive]
pub struct Step {
    /// The code.
    pub code: Vec<u8>,
    /// The offset from which on the instruction has happened; jumps up to `back_at` may be left.
    pub done_at: usize,
    /// The offset of its jump back: control reaches it when the instruction is complete.
    pub back_at: usize,
    /// The length of the instruction in bytes.
    pub len: usize,
}

/// Makes the code that runs the instruction at the front of `code` at the address `place`.
///
/// `old_ip` is the address of the instruction, and `code` has the program's own bytes, without the breakpoint. Every
/// target stays, even if it is the instruction itself.
///
/// Before `place` plus [`Step::done_at`] the instruction has not happened: report its address. From there on and before
/// [`Step::back_at`] it has, and only the jump to where it goes is left: step on, since LOOP, LOOPE and LOOPNE have
/// decremented their counter. At [`Step::back_at`] it is complete: report the address after it. A CALL pushes the address
/// after it in the code, so keep the code until the procedure returns. SYSCALL leaves that address in RCX.
///
/// # Errors
///
/// [`Error::BadMode`], [`Error::Invalid`], [`Error::TooShort`], [`Error::Wraps`], [`Error::TooFar`] or
/// [`Error::NoMemory`].
pub fn step(bitness: u32, old_ip: u64, code: &[u8], place: u64) -> Result<Step, Error> {
    stepped(bitness, old_ip, code, place, Library::step)
}

/// Makes the code that runs the instruction at the front of `code` at the address `place`, if the opcode table leaves that
/// instruction out: one of AVX-512, for example. Its bytes stay, except that its relative number is set so that it refers
/// to the same address. It has happened exactly when control is at [`Step::back_at`].
///
/// ```
/// // vpxord zmm0, zmm0, [rip+0x10] at 0x1000, to be stepped at 0x2000
/// let made = feddurzai::step_unlisted(64, 0x1000, b"\x62\xF1\x7D\x48\xEF\x05\x10\x00\x00\x00", 0x2000)?;
/// assert_eq!(made.code, b"\x62\xF1\x7D\x48\xEF\x05\x10\xF0\xFF\xFF\xE9\xFB\xEF\xFF\xFF");
/// # Ok::<(), feddurzai::Error>(())
/// ```
///
/// # Errors
///
/// [`Error::BadMode`]; [`Error::Invalid`] or [`Error::TooShort`] if no such instruction begins there; [`Error::Wraps`] or
/// [`Error::TooFar`].
pub fn step_unlisted(bitness: u32, old_ip: u64, code: &[u8], place: u64) -> Result<Step, Error> {
    stepped(bitness, old_ip, code, place, Library::step_unlisted)
}

fn stepped(
    bitness: u32,
    old_ip: u64,
    code: &[u8],
    place: u64,
    call: impl Fn(Library, u32, u64, &[u8], u64, &mut [u8], &mut sys::StepReport) -> i32,
) -> Result<Step, Error> {
    let (mut out, mut report) = (vec![0; MAX_STEP], sys::StepReport::default());
    let status = call(Library::get()?, bitness, old_ip, code, place, &mut out, &mut report);
    if status < 0 {
        return Err(Error::of(status, Place { address: report.address, ..Place::default() }));
    }
    out.truncate(taken(status)?);
    let (done_at, back_at) = (usize::from(report.done_at), report.back_at as usize);
    Ok(Step { code: out, done_at, back_at, len: usize::from(report.len) })
}

/// Returns an upper bound of the bytes of [`step`] for this instruction at any place that is a multiple of 16 bytes after
/// `base`, as the places of a [`Region`] with that base are: 1 to 53.
///
/// # Errors
///
/// [`Error::BadMode`], [`Error::Invalid`] or [`Error::TooShort`].
///
/// ```
/// assert!(feddurzai::step_len(64, 0x1000, b"\xE8\xFB\x0F\x00\x00", 0x1800)? >= 10);
/// # Ok::<(), feddurzai::Error>(())
/// ```
pub fn step_len(bitness: u32, old_ip: u64, code: &[u8], base: u64) -> Result<usize, Error> {
    taken(Library::get()?.step_len(bitness, old_ip, code, base))
}

/// The code that runs a near CALL at another address, so that the called code sees the CALL's own return address.
///
/// ```
/// use feddurzai::step_call;
///
/// // call 0x2000 at 0x1000, to be stepped at 0x1800: push 0x1005; mov dword ptr [rsp+4], 0; jmp 0x2000
/// let made = step_call(64, 0x1000, b"\xE8\xFB\x0F\x00\x00", 0x1800)?;
/// assert_eq!(made.code, b"\x68\x05\x10\x00\x00\xC7\x44\x24\x04\x00\x00\x00\x00\xE9\xEE\x07\x00\x00");
/// assert_eq!((made.done_at, made.len), (5, 5));
/// # Ok::<(), feddurzai::Error>(())
/// ```
#[derive(Clone, Debug, PartialEq, Eq, Hash)]
#[non_exhaustive]
pub struct StepCall {
    /// The code: a PUSH of the return address, in 64-bit mode a MOV of its high half, and the jump.
    pub code: Vec<u8>,
    /// The length of the PUSH. From this offset on the CALL has begun: step on until control is outside the code.
    pub done_at: usize,
    /// The length of the CALL in bytes.
    pub len: usize,
}

/// Makes the code that runs the near CALL at the front of `code` at the address `place`, and pushes the address after the
/// CALL where it is. There is no jump back, since the procedure returns to the program.
///
/// The jump reads its operand after the push: one at the stack pointer is raised to name the same memory. With shadow
/// stacks (CET) the RET to a pushed address faults.
///
/// # Errors
///
/// [`Error::BadForm`]: the instruction is no near CALL of the mode's own operand size, or it is one through the stack
/// pointer itself or through memory below it. Otherwise those of [`step`].
pub fn step_call(bitness: u32, old_ip: u64, code: &[u8], place: u64) -> Result<StepCall, Error> {
    let (mut out, mut report) = (vec![0; MAX_STEP], sys::StepReport::default());
    let status = Library::get()?.step_call(bitness, old_ip, code, place, &mut out, &mut report);
    if status < 0 {
        return Err(Error::of(status, Place { address: report.address, ..Place::default() }));
    }
    out.truncate(taken(status)?);
    Ok(StepCall { code: out, done_at: usize::from(report.done_at), len: usize::from(report.len) })
}

/// A live slot of [`StepSlots`]: the address of its code, the address of its instruction, and the code.
///
/// ```
/// use feddurzai::StepSlots;
///
/// let mut slots = StepSlots::new(64, 0x10000, 64, 4)?;
/// slots.step(0x1000, b"\x50")?;
/// assert_eq!((slots.live()[0].place, slots.live()[0].old_ip), (0x10000, 0x1000));
/// # Ok::<(), feddurzai::Error>(())
/// ```
#[derive(Clone, Debug, PartialEq, Eq, Hash)]
pub struct StepSlot {
    /// The address of its code.
    pub place: u64,
    /// The address of its instruction.
    pub old_ip: u64,
    /// Its code.
    pub step: Step,
}

/// Slots for displaced single stepping, in a range of addresses within reach of the program.
///
/// ```
/// use feddurzai::StepSlots;
///
/// let mut slots = StepSlots::new(64, 0x10000, 64, 4)?;
/// // push rax at 0x1000
/// let place = slots.step(0x1000, b"\x50")?;
/// assert_eq!(&slots.image()[..6], b"\x50\xE9\xFB\x0F\xFF\xFF");
/// slots.finish(place)?;
/// assert!(slots.live().is_empty());
/// # Ok::<(), feddurzai::Error>(())
/// ```
#[derive(Clone, Debug)]
pub struct StepSlots {
    bitness: u32,
    region: Region,
    slots: Vec<StepSlot>,
}

impl StepSlots {
    /// Slots in a range of `size` bytes, at most `most` at a time, as for a [`Region`]. The range ends inside the address
    /// space of the mode.
    ///
    /// # Errors
    ///
    /// [`Error::BadMode`], [`Error::BadRegion`] or [`Error::Interface`].
    pub fn new(bitness: u32, base: u64, size: u64, most: usize) -> Result<StepSlots, Error> {
        checked_mode(bitness)?;
        let region = Region::new(base, size, most)?;
        let last = base.wrapping_add(size.wrapping_sub(1));
        if last > mask_of(bitness) {
            return Err(Error::BadRegion);
        }
        Ok(StepSlots { bitness, region, slots: Vec::new() })
    }

    /// The bytes of the range, CC outside the slots.
    #[must_use]
    pub fn image(&self) -> &[u8] {
        self.region.image()
    }

    /// The live slots, in the order in which they were made.
    #[must_use]
    pub fn live(&self) -> &[StepSlot] {
        &self.slots
    }

    /// Makes a slot for the instruction at the front of `code`, whose address is `old_ip`. Returns the address of its code.
    ///
    /// # Errors
    ///
    /// Those of [`step`] and of [`Region::reserve`]. Then nothing is changed.
    pub fn step(&mut self, old_ip: u64, code: &[u8]) -> Result<u64, Error> {
        let len = step_len(self.bitness, old_ip, code, self.region.base())?;
        let place = self.region.reserve(len as u64)?;
        let made =
            step(self.bitness, old_ip, code, place).and_then(|made| self.region.fill(place, &made.code).map(|()| made));
        match made {
            Ok(step) => {
                self.slots.push(StepSlot { place, old_ip: old_ip & mask_of(self.bitness), step });
                Ok(place)
            }
            Err(refused) => {
                self.region.release(place)?;
                Err(refused)
            }
        }
    }

    /// Frees the live slot whose code starts at `place`, and sets its bytes to CC.
    ///
    /// # Errors
    ///
    /// [`Error::NotLive`].
    pub fn finish(&mut self, place: u64) -> Result<(), Error> {
        self.region.release(place)?;
        self.slots.retain(|slot| slot.place != place);
        Ok(())
    }
}
