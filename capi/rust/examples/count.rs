//! Counts the instructions of a file of raw 64-bit code, for `bench/rust.sh`: what a loop in Rust costs beside one in C.
//!
//!     count FILE decode|text|string|line|info|encode
//!
//! `text` writes each text over the one before it, as the loop in C does; `string` appends it to a `String`. `line` decodes
//! and writes the text by one call. `info` reports what each instruction does, and `encode` encodes it at its own address.

use feddurzai::{
    Code, Decoder, DecoderOptions, Encoder, Formatter, FormatterSyntax, Instruction, InstructionInfoFactory,
    IntelFormatter, Text,
};
use std::{env, error::Error, fs};

const WORK: [&str; 6] = ["decode", "text", "string", "line", "info", "encode"];

/// What is done with each instruction, besides decoding it.
#[derive(Clone, Copy, PartialEq)]
enum Work {
    Decode,
    Text,
    String,
    Line,
    Info,
    Encode,
}

/// The number of instructions, and a sum over them that no compiler leaves out.
fn count(code: &[u8], work: Work) -> Result<(u64, u64), Box<dyn Error>> {
    let mut decoder = Decoder::try_with_ip(64, code, 0x401000, DecoderOptions::NONE)?;
    let mut instruction = Instruction::default();
    let (mut text, mut formatter, mut string) = (Text::new(), IntelFormatter::new(), String::new());
    let (mut factory, mut encoder) = (InstructionInfoFactory::new(), Encoder::try_new(64)?);
    encoder.set_buffer(Vec::with_capacity(2 * code.len()));
    let (mut found, mut sum) = (0, 0_u64);
    while decoder.can_decode() {
        if work == Work::Line {
            decoder.decode_line(FormatterSyntax::Intel, &mut instruction, &mut text);
        } else {
            decoder.decode_out(&mut instruction);
        }
        let code = instruction.code();
        if code == Code::INVALID {
            continue;
        }
        found += 1;
        sum = sum.wrapping_add(u64::from(code.value()));
        let more = match work {
            Work::Decode => 0,
            Work::Text => {
                instruction.write_text(FormatterSyntax::Intel, &mut text)?;
                text.len()
            }
            Work::String => {
                string.clear();
                formatter.format(&instruction, &mut string);
                string.len()
            }
            Work::Line => text.len(),
            Work::Info => {
                let info = factory.info(&instruction);
                info.used_registers().len() + info.used_memory().len() + info.flow_control() as usize
            }
            Work::Encode => encoder.encode(&instruction, instruction.ip()).unwrap_or(0),
        };
        sum = sum.wrapping_add(more as u64);
    }
    Ok((found, sum))
}

fn main() -> Result<(), Box<dyn Error>> {
    let words: Vec<String> = env::args().collect();
    let usage = format!("usage: count FILE {}", WORK.join("|"));
    let (file, what) = match &words[..] {
        [_, file, what] => (file, what.as_str()),
        _ => return Err(usage.into()),
    };
    let work = match what {
        "decode" => Work::Decode,
        "text" => Work::Text,
        "string" => Work::String,
        "line" => Work::Line,
        "info" => Work::Info,
        "encode" => Work::Encode,
        _ => return Err(usage.into()),
    };
    let (found, sum) = count(&fs::read(file)?, work)?;
    println!("{} instructions, {}", found, sum);
    Ok(())
}
