//! Disassembles some bytes: address, bytes and text of each instruction.

use feddurzai::{Decoder, DecoderOptions, Formatter, Instruction, NasmFormatter};
use std::fmt::Write;

/// The mode, the address and the bytes of the code.
pub const BITNESS: u32 = 64;
pub const CODE_RIP: u64 = 0x0000_7FFA_C46A_CDA4;
pub static CODE: &[u8] = &[
    0x48, 0x89, 0x5C, 0x24, 0x10, 0x48, 0x89, 0x74, 0x24, 0x18, 0x55, 0x57, 0x41, 0x56, 0x48, 0x8D, 0xAC, 0x24, 0x00,
    0xFF, 0xFF, 0xFF, 0x48, 0x81, 0xEC, 0x00, 0x02, 0x00, 0x00, 0x48, 0x8B, 0x05, 0x18, 0x57, 0x0A, 0x00, 0x48, 0x33,
    0xC4, 0x48, 0x89, 0x85, 0xF0, 0x00, 0x00, 0x00, 0x4C, 0x8B, 0x05, 0x2F, 0x24, 0x0A, 0x00, 0x48, 0x8D, 0x05, 0x78,
    0x7C, 0x04, 0x00, 0x33, 0xFF,
];

/// The listing of the code.
pub fn disassemble() -> String {
    let mut decoder = Decoder::with_ip(BITNESS, CODE, CODE_RIP, DecoderOptions::NONE);
    let mut formatter = NasmFormatter::new();
    let mut listing = String::new();
    let mut output = String::new();
    // one instruction is reused: decode_out is faster than decode
    let mut instruction = Instruction::default();
    while decoder.can_decode() {
        decoder.decode_out(&mut instruction);
        output.clear();
        formatter.format(&instruction, &mut output);
        let bytes: String = instruction.bytes().iter().map(|byte| format!("{:02X}", byte)).collect();
        // writing to a String cannot fail
        let _ = writeln!(listing, "{:016X} {:<20} {}", instruction.ip(), bytes, output);
    }
    listing
}

#[allow(dead_code)]
fn main() {
    print!("{}", disassemble());
}
