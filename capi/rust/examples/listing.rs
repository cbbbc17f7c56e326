//! Lists a file of raw machine code: address, bytes and text of each instruction, as `feddurzai list` does.
//!
//!     listing FILE [BITS [BASE [intel|att|masm]]]      BITS is 16, 32 or 64 (64 by default), BASE is hexadecimal

use feddurzai::{Decoder, DecoderOptions, FormatterSyntax, Instruction, Text};
use std::error::Error;
use std::io::{self, BufWriter, Write};
use std::{env, fs};

/// Writes the line of a byte with which no instruction begins.
fn write_byte(out: &mut impl Write, syntax: FormatterSyntax, byte: u8) -> io::Result<()> {
    match syntax {
        FormatterSyntax::Masm if byte >= 0xA0 => writeln!(out, "db 0{:x}h", byte),
        FormatterSyntax::Masm => writeln!(out, "db {:x}h", byte),
        FormatterSyntax::Gas => writeln!(out, ".byte {:#x}", byte),
        _ => writeln!(out, "db {:#x}", byte),
    }
}

/// Writes a number in hexadecimal digits, as many as there is room for.
fn write_digits(room: &mut [u8], number: u64) {
    let mut rest = number;
    for digit in room.iter_mut().rev() {
        *digit = b"0123456789abcdef"[(rest & 15) as usize];
        rest >>= 4;
    }
}

/// Lists some code.
pub fn list(
    code: &[u8],
    bitness: u32,
    ip: u64,
    syntax: FormatterSyntax,
    out: &mut impl Write,
) -> Result<(), Box<dyn Error>> {
    let mut decoder = Decoder::try_with_ip(bitness, code, ip, DecoderOptions::NONE)?;
    let (mut instruction, mut text) = (Instruction::default(), Text::new());
    // the address, and the bytes of the longest instruction, with a space after each
    let digits = bitness as usize / 4;
    let mut columns = vec![b' '; digits + 1 + 30 + 1];
    let (address, bytes) = columns.split_at_mut(digits);
    while decoder.can_decode() {
        decoder.decode_line(syntax, &mut instruction, &mut text);
        write_digits(address, instruction.ip());
        bytes.fill(b' ');
        for (room, byte) in bytes[1..].chunks_exact_mut(2).zip(instruction.bytes()) {
            write_digits(room, u64::from(*byte));
        }
        out.write_all(address)?;
        out.write_all(bytes)?;
        if instruction.is_invalid() {
            write_byte(out, syntax, instruction.bytes().first().copied().unwrap_or(0))?;
        } else {
            out.write_all(text.as_bytes())?;
            out.write_all(b"\n")?;
        }
    }
    Ok(())
}

#[allow(dead_code)]
fn main() -> Result<(), Box<dyn Error>> {
    let words: Vec<String> = env::args().collect();
    let usage = "usage: listing FILE [BITS [BASE [intel|att|masm]]], with BITS 16, 32 or 64 and BASE hexadecimal";
    let file = words.get(1).ok_or(usage)?;
    let bitness = words.get(2).map_or(Ok(64), |word| word.parse())?;
    let ip = words.get(3).map_or(Ok(0), |word| u64::from_str_radix(word, 16))?;
    let syntax = match words.get(4).map(String::as_str) {
        None | Some("intel") => FormatterSyntax::Intel,
        Some("att") => FormatterSyntax::Gas,
        Some("masm") => FormatterSyntax::Masm,
        Some(_) => return Err(usage.into()),
    };
    let mut out = BufWriter::with_capacity(1 << 16, io::stdout().lock());
    list(&fs::read(file)?, bitness, ip, syntax, &mut out)?;
    out.flush()?;
    Ok(())
}
