//! Runs the examples and compares what they print.

#![allow(dead_code, clippy::duplicate_mod)]

use feddurzai::{Error, FormatterSyntax, IntelFormatter};

#[path = "../examples/colors.rs"]
mod colors;
#[path = "../examples/disassemble.rs"]
mod disassemble;
#[path = "../examples/hook.rs"]
mod hook;
#[path = "../examples/instruction_info.rs"]
mod instruction_info;
#[path = "../examples/listing.rs"]
mod listing;
#[path = "../examples/move_code.rs"]
mod move_code;
#[path = "../examples/rewrite.rs"]
mod rewrite;
#[path = "../examples/symbols.rs"]
mod symbols;

/// objdump 2.40 lists the same code: `mov QWORD PTR [rsp+0x10],rbx` .. `xor edi,edi`, with these targets of RIP.
#[test]
fn disassemble_lists_the_code() {
    let listing = disassemble::disassemble();
    let lines: Vec<&str> = listing.lines().collect();
    assert_eq!(lines.len(), 13);
    assert_eq!(lines[0], "00007FFAC46ACDA4 48895C2410           mov qword [rsp+0x10], rbx");
    assert_eq!(lines[7], "00007FFAC46ACDC1 488B0518570A00       mov rax, qword [rel 0x7ffac47524e0]");
    assert_eq!(lines[12], "00007FFAC46ACDE0 33FF                 xor edi, edi");
}

#[test]
fn symbols_replace_addresses() {
    assert_eq!(symbols::with_symbols(), ["mov rcx, qword [rel my_data]", "call main", "jmp done", "nop", "ret"]);
}

#[test]
fn colors_are_escape_sequences() {
    let lines = colors::colored_lines(&mut IntelFormatter::new());
    assert_eq!(lines[1], "\x1B[33mje\x1B[0m\x1B[37m \x1B[0m\x1B[34m0x1010\x1B[0m");
    assert!(lines[0].starts_with("\x1B[33mlock\x1B[0m") && lines[0].contains("\x1B[36mdword\x1B[0m"));
}

#[test]
fn information_is_printed() {
    let push = instruction_info::describe(64, 0x1000, b"\x53").unwrap();
    let wanted = "0000000000001000 push rbx\n    row: o64 50+ro Push_r64\n    flow: Next\n    operand 0: Register Read\n    \
                  register: RBX Read\n    register: RSP ReadWrite\n    memory: SS:[RSP+None*1+0xfffffffffffffff8] 8 Write\n";
    assert_eq!(push, wanted);
    let adc = instruction_info::describe(64, 0, b"\x80\x50\x08\x05").unwrap();
    for line in [
        "displacement: 1 at 2",
        "immediate: 1 at 3",
        "operand 0: Memory ReadWrite, 1 bytes",
        "flags read: CF",
        "flags written: OF SF ZF AF PF CF",
    ] {
        assert!(adc.contains(line), "{}", adc);
    }
}

#[test]
fn a_front_is_moved() {
    let lines = move_code::moved_lines().unwrap();
    assert_eq!(
        lines,
        [
            "00007FFAC46ACDA4 jmp qword [rel 0x7ffac46acdaa]",
            "00007FFAC46ACDAA BC9A785634120000",
            "00007FFAC48ACDA4 mov qword [rsp+0x10], rbx",
            "00007FFAC48ACDA9 mov qword [rsp+0x18], rsi",
            "00007FFAC48ACDAE push rbp",
            "00007FFAC48ACDAF push rdi",
            "00007FFAC48ACDB0 push r14",
            "00007FFAC48ACDB2 jmp qword [rel 0x7ffac48acdb8]",
            "00007FFAC48ACDB8 B2CD6AC4FA7F0000",
        ]
    );
    let refused = move_code::move_front(64, 0, b"\x90\xC3", 0, 0x1000).map(|_| ());
    assert_eq!(refused, Err(Error::Ends { at: 2 }));
}

#[test]
fn a_function_is_hooked() {
    assert_eq!(
        hook::hook_lines().unwrap(),
        [
            "401000 jmp 0x402000",
            "401005 int3",
            "401006 int3",
            "403000 sub rsp, 0x18",
            "403004 lea eax, [rdi+rdi*2]",
            "403007 jmp 0x401007"
        ]
    );
    assert_eq!(hook::refusal(), Some(Error::Entered { from: 6, to: 2 }));
    #[cfg(all(target_os = "linux", target_arch = "x86_64"))]
    assert_eq!(hook::live::run().unwrap(), ([21, 21, 21], 1));
}

/// The bytes of the replacements are those of GNU as: xor 31 C0, test 85 FF, inc FF C1, dec FF CF.
#[test]
fn a_function_is_rewritten() {
    let instructions = rewrite::read_function(0x40_1000, rewrite::FUNCTION).unwrap();
    assert_eq!(instructions.len(), 13);
    let (bytes, replaced) = rewrite::shortened(&instructions).unwrap();
    assert_eq!(
        (replaced, &bytes[..]),
        (
            5,
            &b"\x55\x48\x89\xE5\x31\xC0\x0F\x1F\x00\x31\xC9\x0F\x1F\x00\x85\xFF\x90\x74\x0A\xFF\xC1\x90\x01\xC8\xFF\xCF\x90\x75\xF6\x48\x89\xEC\x5D\xC3"[..]
        )
    );
    let (found, grown) = rewrite::moved(&instructions, 0x50_0000).unwrap();
    assert_eq!((found.len(), grown, found[0].ip()), (13, 0, 0x50_0000));
    let out = rewrite::rewrite(0x40_1000, rewrite::FUNCTION, 0x7FFF_0000_0000).unwrap();
    for line in [
        "5 instructions replaced:",
        "moved to 7fff00000000, 0 branches longer:",
        "je     label_2             ; tests flags, ConditionalBranch",
    ] {
        assert!(out.contains(line), "{}", out);
    }
    assert_eq!(rewrite::read_function(0, b"\x90\x06").unwrap_err(), Error::Invalid { at: 1 });
}

/// What `feddurzai list` prints: `db` for a byte with which no instruction begins, in three styles.
#[test]
fn listings_have_a_line_for_each_item() {
    let list = |syntax| {
        let mut out = Vec::new();
        listing::list(b"\x48\x89\x5C\x24\x10\x06\xC3\x48", 64, 0x401000, syntax, &mut out).unwrap();
        String::from_utf8(out).unwrap()
    };
    assert_eq!(
        list(FormatterSyntax::Intel),
        "0000000000401000 48895c2410                     mov qword [rsp+0x10], rbx\n\
         0000000000401005 06                             db 0x6\n\
         0000000000401006 c3                             ret\n\
         0000000000401007 48                             db 0x48\n"
    );
    let mut found = Vec::new();
    rewrite::list(b"\x48\x89\x5C\x24\x10\x06\xC3\x48", 0x401000, &mut found).unwrap();
    assert_eq!(String::from_utf8(found).unwrap(), list(FormatterSyntax::Intel));
    assert!(list(FormatterSyntax::Gas).ends_with(".byte 0x48\n") && list(FormatterSyntax::Masm).ends_with("db 48h\n"));
    let mut out = Vec::new();
    listing::list(b"\xF0", 16, 0xFFFF, FormatterSyntax::Masm, &mut out).unwrap();
    assert_eq!(out, b"ffff f0                             db 0f0h\n");
    assert!(listing::list(b"", 8, 0, FormatterSyntax::Masm, &mut out).is_err());
}
