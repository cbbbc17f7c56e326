//! Hooks a function of this program: `Detour` makes the patch and the trampoline, and the replacement counts the calls.
//!
//! The code is for Linux on x86-64; elsewhere only the bytes of the hook are made. Writing code is the one thing that is
//! unsafe.

use feddurzai::{Decoder, DecoderOptions, Detour, DetourStart, Error};

/// A function: `sub rsp, 0x18; lea eax, [rdi+rdi*2]; add rsp, 0x18; ret`, which triples its argument.
pub static TRIPLE: &[u8] = b"\x48\x83\xEC\x18\x8D\x04\x7F\x48\x83\xC4\x18\xC3";

/// A function whose loop enters its first bytes: `xor eax, eax; inc eax; cmp eax, edi; jb back to inc; ret`.
pub static COUNTS_UP: &[u8] = b"\x31\xC0\xFF\xC0\x39\xF8\x72\xFA\xC3";

/// The texts of the patch and of the trampoline of a hook of `TRIPLE` at 0x401000.
pub fn hook_lines() -> Result<Vec<String>, Error> {
    let detour = Detour::new(64, 0x40_1000, TRIPLE, 0x40_2000, 0x40_3000, DetourStart::Moved)?;
    let mut lines = Vec::new();
    for (ip, code) in [(0x40_1000, detour.patch()), (0x40_3000, detour.trampoline())] {
        for instruction in Decoder::with_ip(64, code, ip, DecoderOptions::NONE) {
            lines.push(format!("{:x} {}", instruction.ip(), instruction));
        }
    }
    Ok(lines)
}

/// Why `COUNTS_UP` cannot be hooked.
pub fn refusal() -> Option<Error> {
    Detour::new(64, 0x40_1000, COUNTS_UP, 0x40_2000, 0x40_3000, DetourStart::Moved).err()
}

/// Runs the hook in pages of this process.
#[cfg(all(target_os = "linux", target_arch = "x86_64"))]
pub mod live {
    use feddurzai::{Detour, DetourStart};
    use std::ffi::c_void;
    use std::sync::atomic::{AtomicUsize, Ordering};

    extern "C" {
        fn mmap(at: *mut c_void, len: usize, protection: i32, flags: i32, file: i32, offset: i64) -> *mut c_void;
        fn munmap(at: *mut c_void, len: usize) -> i32;
    }

    const PAGE: usize = 4096;
    const READ_WRITE_EXECUTE: i32 = 7;
    const PRIVATE_ANONYMOUS: i32 = 0x22;

    type Function = extern "C" fn(i32) -> i32;

    static CALLS: AtomicUsize = AtomicUsize::new(0);
    static TRAMPOLINE: AtomicUsize = AtomicUsize::new(0);

    /// Counts the call, and continues as the original function.
    extern "C" fn replacement(x: i32) -> i32 {
        CALLS.fetch_add(1, Ordering::SeqCst);
        // SAFETY: `run` stores the address of the trampoline before it installs the hook.
        let original: Function = unsafe { std::mem::transmute(TRAMPOLINE.load(Ordering::SeqCst)) };
        original(x)
    }

    /// The results of the function before the hook, with it and after it, and the number of calls of the hook.
    pub fn run() -> Result<([i32; 3], usize), Box<dyn std::error::Error>> {
        // SAFETY: a new mapping overlaps nothing.
        let page = unsafe { mmap(std::ptr::null_mut(), PAGE, READ_WRITE_EXECUTE, PRIVATE_ANONYMOUS, -1, 0) };
        if page as isize == -1 {
            return Err("mmap failed".into());
        }
        // SAFETY: the page is writable, and nothing else refers to it.
        let code = unsafe { std::slice::from_raw_parts_mut(page.cast::<u8>(), PAGE) };
        let (function, trampoline) = code.split_at_mut(PAGE / 2);
        function[..super::TRIPLE.len()].copy_from_slice(super::TRIPLE);
        let ip = function.as_ptr() as u64;
        // SAFETY: the page is executable, and a function with this signature begins there.
        let triple: Function = unsafe { std::mem::transmute(function.as_ptr()) };

        let mut results = [triple(7), 0, 0];
        let place = trampoline.as_ptr() as u64;
        let detour =
            Detour::new(64, ip, super::TRIPLE, replacement as *const c_void as u64, place, DetourStart::Moved)?;
        trampoline[..detour.trampoline().len()].copy_from_slice(detour.trampoline());
        TRAMPOLINE.store(trampoline.as_ptr() as usize, Ordering::SeqCst);
        // no thread runs in the function: this program has one
        function[..detour.patch().len()].copy_from_slice(detour.patch());
        results[1] = triple(7);
        function[..detour.patch().len()].copy_from_slice(&super::TRIPLE[..detour.patch().len()]);
        results[2] = triple(7);
        // SAFETY: nothing refers to the page any more.
        unsafe { munmap(page, PAGE) };
        Ok((results, CALLS.load(Ordering::SeqCst)))
    }
}

#[allow(dead_code)]
fn main() -> Result<(), Box<dyn std::error::Error>> {
    for line in hook_lines()? {
        println!("{}", line);
    }
    if let Some(refusal) = refusal() {
        println!("the function that counts up is refused: {}", refusal);
    }
    #[cfg(all(target_os = "linux", target_arch = "x86_64"))]
    {
        let (results, calls) = live::run()?;
        println!("results before, with and after the hook: {:?}; calls of the hook: {}", results, calls);
    }
    Ok(())
}
