//! Reads a function, reports what its instructions do, replaces some by shorter ones, and moves the result.
//!
//!     rewrite [FILE [ADDRESS [NEW_ADDRESS]]]      raw 64-bit code, addresses in hexadecimal
//!     rewrite list FILE [ADDRESS]                 the listing of code of any size, as `feddurzai list` writes it
//!
//! It uses the decoder, a formatter with an output of its own, the instruction information, constructed instructions, the
//! encoder and the block encoder. Without a file it rewrites a function of its own.

use feddurzai::{
    BlockEncoder, BlockEncoderOptions, Code, Decoder, DecoderOptions, Encoder, FlowControl, Formatter, FormatterOutput,
    FormatterTextKind, Instruction, InstructionBlock, InstructionInfoFactory, IntelFormatter, MovedForm, OpAccess,
    OpKind, Register, RflagsBits,
};
use std::collections::BTreeMap;
use std::error::Error;
use std::fmt::Write;
use std::io::{self, BufWriter, Write as _};
use std::{env, fs};

const BITNESS: u32 = 64;

/// A function that sums the numbers from 1 to its argument:
///
/// `push rbp; mov rbp, rsp; mov eax, 0x0; mov ecx, 0x0; cmp edi, 0x0; je end; add ecx, 0x1; add eax, ecx; sub edi, 0x1;
/// jne to the fourth last; mov rsp, rbp; pop rbp; ret`, with `end` at `mov rsp, rbp`.
pub static FUNCTION: &[u8] = &[
    0x55, 0x48, 0x89, 0xE5, 0xB8, 0x00, 0x00, 0x00, 0x00, 0xB9, 0x00, 0x00, 0x00, 0x00, 0x83, 0xFF, 0x00, 0x74, 0x0A,
    0x83, 0xC1, 0x01, 0x01, 0xC8, 0x83, 0xEF, 0x01, 0x75, 0xF6, 0x48, 0x89, 0xEC, 0x5D, 0xC3,
];

/// The flags that arithmetic changes.
const STATUS: u32 = RflagsBits::OF | RflagsBits::SF | RflagsBits::ZF | RflagsBits::AF | RflagsBits::PF | RflagsBits::CF;

/// Decodes a function. Bytes that are no instruction are an error.
pub fn read_function(ip: u64, code: &[u8]) -> Result<Vec<Instruction>, feddurzai::Error> {
    let mut decoder = Decoder::try_with_ip(BITNESS, code, ip, DecoderOptions::NONE)?;
    let mut instructions = Vec::new();
    while decoder.can_decode() {
        let at = decoder.position() as u64;
        let instruction = decoder.decode();
        if instruction.is_invalid() {
            return Err(feddurzai::Error::Invalid { at });
        }
        instructions.push(instruction);
    }
    Ok(instructions)
}

/// The labels of a function: the addresses of its instructions to which a branch goes, by address.
pub fn labels_of(instructions: &[Instruction]) -> BTreeMap<u64, String> {
    let starts = |target| instructions.iter().any(|instruction| instruction.ip() == target);
    let mut labels = BTreeMap::new();
    for instruction in instructions {
        if instruction.op_kinds().any(|kind| kind == OpKind::NearBranch) && starts(instruction.near_branch_target()) {
            labels.insert(instruction.near_branch_target(), String::new());
        }
    }
    for (number, name) in labels.values_mut().enumerate() {
        *name = format!("label_{}", number + 1);
    }
    labels
}

/// Receives the parts of a text, and writes labels for the targets of branches.
struct LabelOutput<'a> {
    labels: &'a BTreeMap<u64, String>,
    text: String,
}

impl FormatterOutput for LabelOutput<'_> {
    fn write(&mut self, text: &str, kind: FormatterTextKind) {
        if kind == FormatterTextKind::Mnemonic {
            self.text.push_str(&format!("{:<6}", text));
        } else {
            self.text.push_str(text);
        }
    }

    fn write_number(&mut self, _instruction: &Instruction, text: &str, value: u64, kind: FormatterTextKind) {
        match self.labels.get(&value) {
            Some(label) if kind == FormatterTextKind::LabelAddress => self.text.push_str(label),
            _ => self.text.push_str(text),
        }
    }
}

/// What an instruction does, in a few words.
fn remark(factory: &mut InstructionInfoFactory, instruction: &Instruction) -> String {
    let info = factory.info(instruction);
    let mut words = Vec::new();
    for (what, wanted) in [("reads", OpAccess::reads as fn(OpAccess) -> bool), ("writes", OpAccess::writes)] {
        let mut names: Vec<String> = Vec::new();
        for used in info.used_registers().iter().filter(|used| wanted(used.access())) {
            let name = used.register().full_register().to_string();
            if !names.contains(&name) {
                names.push(name);
            }
        }
        if !names.is_empty() {
            words.push(format!("{} {}", what, names.join(" ")));
        }
    }
    if info.rflags_read() & STATUS != 0 {
        words.push("tests flags".to_string());
    }
    if info.rflags_modified() & STATUS != 0 {
        words.push("changes flags".to_string());
    }
    let stored: usize =
        info.used_memory().iter().filter(|used| used.access().writes()).map(|used| used.memory_size()).sum();
    if stored != 0 {
        words.push(format!("stores {} bytes", stored));
    }
    if info.flow_control() != FlowControl::Next {
        words.push(format!("{:?}", info.flow_control()));
    }
    words.join(", ")
}

/// The listing of a function, with labels and remarks.
pub fn listing(instructions: &[Instruction]) -> Result<String, std::fmt::Error> {
    let labels = labels_of(instructions);
    let mut formatter = IntelFormatter::new();
    let mut factory = InstructionInfoFactory::new();
    let mut out = String::new();
    for instruction in instructions {
        if let Some(label) = labels.get(&instruction.ip()) {
            writeln!(out, "{}:", label)?;
        }
        let mut output = LabelOutput { labels: &labels, text: String::new() };
        formatter.format(instruction, &mut output);
        let bytes: String = instruction.bytes().iter().map(|byte| format!("{:02x}", byte)).collect();
        let remark = remark(&mut factory, instruction);
        let line = format!("{:8x} {:<14} {:<26} ; {}", instruction.ip(), bytes, output.text, remark);
        writeln!(out, "{}", line.trim_end_matches([' ', ';']))?;
    }
    Ok(out)
}

/// The flags that may be read after each instruction: all of them where control leaves the function.
fn live_flags(instructions: &[Instruction]) -> Vec<u32> {
    let index: BTreeMap<u64, usize> = instructions.iter().enumerate().map(|(at, one)| (one.ip(), at)).collect();
    let mut before = vec![0; instructions.len()];
    let mut after = vec![0; instructions.len()];
    loop {
        let mut is_changed = false;
        for (at, instruction) in instructions.iter().enumerate().rev() {
            let next = before.get(at + 1).copied().unwrap_or(STATUS);
            let target = index.get(&instruction.near_branch_target()).and_then(|&to| before.get(to)).copied();
            let live = match instruction.flow_control() {
                FlowControl::Next => next,
                FlowControl::UnconditionalBranch => target.unwrap_or(STATUS),
                FlowControl::ConditionalBranch => next | target.unwrap_or(STATUS),
                // the flags are no result of a function, and no argument
                FlowControl::Return => 0,
                _ => STATUS,
            };
            let overwritten = instruction.rflags_modified();
            let needed = (live & !overwritten | instruction.rflags_read()) & STATUS;
            is_changed |= (before[at], after[at]) != (needed, live);
            before[at] = needed;
            after[at] = live;
        }
        if !is_changed {
            return after;
        }
    }
}

/// A shorter instruction that does the same, if the flags that it changes differently are dead.
fn shorter(instruction: &Instruction, live: u32) -> Result<Option<Instruction>, feddurzai::Error> {
    let register = instruction.op0_register();
    let found = match (instruction.code(), instruction.immediate(1)) {
        // mov eax, 0x0: xor eax, eax, which changes the flags
        (Code::Mov_r32_imm32, 0) if live == 0 => Instruction::with2(Code::Xor_rm32_r32, register, register)?,
        // cmp edi, 0x0: test edi, edi, which leaves AF undefined
        (Code::Cmp_rm32_imm8, 0) if register != Register::None && live & RflagsBits::AF == 0 => {
            Instruction::with2(Code::Test_rm32_r32, register, register)?
        }
        // add ecx, 0x1: inc ecx, which keeps CF
        (Code::Add_rm32_imm8, 1) if register != Register::None && live & RflagsBits::CF == 0 => {
            Instruction::with1(Code::Inc_rm32, register)?
        }
        (Code::Sub_rm32_imm8, 1) if register != Register::None && live & RflagsBits::CF == 0 => {
            Instruction::with1(Code::Dec_rm32, register)?
        }
        _ => return Ok(None),
    };
    Ok(Some(found))
}

/// Instructions that do nothing, of 1 to 9 bytes (Intel SDM volume 2, NOP, table 4-12).
const NOPS: [&[u8]; 9] = [
    b"\x90",
    b"\x66\x90",
    b"\x0F\x1F\x00",
    b"\x0F\x1F\x40\x00",
    b"\x0F\x1F\x44\x00\x00",
    b"\x66\x0F\x1F\x44\x00\x00",
    b"\x0F\x1F\x80\x00\x00\x00\x00",
    b"\x0F\x1F\x84\x00\x00\x00\x00\x00",
    b"\x66\x0F\x1F\x84\x00\x00\x00\x00\x00",
];

/// Replaces instructions by shorter ones and fills up with instructions that do nothing, so that no address changes.
/// Returns the bytes and the number of replaced instructions.
pub fn shortened(instructions: &[Instruction]) -> Result<(Vec<u8>, usize), Box<dyn Error>> {
    let live = live_flags(instructions);
    let mut encoder = Encoder::try_new(BITNESS)?;
    let mut replaced = 0;
    for (instruction, &live) in instructions.iter().zip(&live) {
        let found = match shorter(instruction, live)? {
            Some(found) => found,
            None => {
                // unchanged instructions keep their bytes
                instruction.bytes().iter().for_each(|&byte| encoder.write_u8(byte));
                continue;
            }
        };
        let len = encoder.encode(&found, instruction.ip())?;
        if let Some(gap) = instruction.len().checked_sub(len + 1) {
            NOPS[gap].iter().for_each(|&byte| encoder.write_u8(byte));
        }
        replaced += 1;
    }
    Ok((encoder.take_buffer(), replaced))
}

/// The moved function: its instructions at the new address, and how many branches have another form.
pub fn moved(instructions: &[Instruction], new_ip: u64) -> Result<(Vec<Instruction>, usize), Box<dyn Error>> {
    let block = InstructionBlock::new(instructions, new_ip);
    let result = BlockEncoder::encode(BITNESS, block, BlockEncoderOptions::NONE)?;
    let grown = result.forms.iter().filter(|&&form| !matches!(form, MovedForm::Itself | MovedForm::Short)).count();
    let found = read_function(new_ip, &result.code_buffer[..result.code_len])?;
    // each branch within the function still goes to the same instruction
    for (old, &offset) in instructions.iter().zip(&result.new_instruction_offsets) {
        let target = instructions.iter().position(|one| one.ip() == old.near_branch_target());
        if let (Some(target), FlowControl::ConditionalBranch) = (target, old.flow_control()) {
            let wanted = new_ip + u64::from(result.new_instruction_offsets[target]);
            let new = found.iter().find(|one| one.ip() == new_ip + u64::from(offset));
            if new.map(Instruction::near_branch_target) != Some(wanted) {
                return Err(format!("{} does not go to {:#x}", old, wanted).into());
            }
        }
    }
    Ok((found, grown))
}

/// All steps over a function.
pub fn rewrite(ip: u64, code: &[u8], new_ip: u64) -> Result<String, Box<dyn Error>> {
    let mut out = String::new();
    let instructions = read_function(ip, code)?;
    writeln!(out, "{}", listing(&instructions)?)?;

    let (bytes, replaced) = shortened(&instructions)?;
    let shorter = read_function(ip, &bytes)?;
    writeln!(out, "{} instructions replaced:", replaced)?;
    writeln!(out, "{}", listing(&shorter)?)?;

    let (found, grown) = moved(&shorter, new_ip)?;
    writeln!(out, "moved to {:x}, {} branches longer:", new_ip, grown)?;
    write!(out, "{}", listing(&found)?)?;
    Ok(out)
}

/// Appends bytes in hexadecimal digits.
fn push_digits(line: &mut String, bytes: &[u8]) {
    for byte in bytes {
        for nibble in [byte >> 4, byte & 15] {
            line.push(char::from(b"0123456789abcdef"[usize::from(nibble)]));
        }
    }
}

/// Lists code: address, bytes and text of each instruction, and `db` for a byte with which none begins.
pub fn list(code: &[u8], ip: u64, out: &mut impl io::Write) -> Result<(), Box<dyn Error>> {
    let mut decoder = Decoder::try_with_ip(BITNESS, code, ip, DecoderOptions::NONE)?;
    let mut formatter = IntelFormatter::new();
    let (mut instruction, mut line) = (Instruction::default(), String::new());
    while decoder.can_decode() {
        decoder.decode_out(&mut instruction);
        line.clear();
        push_digits(&mut line, &instruction.ip().to_be_bytes());
        line.push(' ');
        push_digits(&mut line, instruction.bytes());
        line.push_str(&"                               "[2 * instruction.len()..]);
        if instruction.is_invalid() {
            write!(line, "db {:#x}", instruction.bytes()[0])?;
        } else {
            formatter.format(&instruction, &mut line);
        }
        line.push('\n');
        out.write_all(line.as_bytes())?;
    }
    Ok(())
}

/// The address that a word names.
fn address(word: Option<&String>, default: u64) -> Result<u64, std::num::ParseIntError> {
    word.map_or(Ok(default), |word| u64::from_str_radix(word, 16))
}

#[allow(dead_code)]
fn main() -> Result<(), Box<dyn Error>> {
    let words: Vec<String> = env::args().collect();
    if let (Some("list"), Some(file)) = (words.get(1).map(String::as_str), words.get(2)) {
        let mut out = BufWriter::with_capacity(1 << 16, io::stdout().lock());
        list(&fs::read(file)?, address(words.get(3), 0)?, &mut out)?;
        out.flush()?;
        return Ok(());
    }
    let code = words.get(1).map_or(Ok(FUNCTION.to_vec()), fs::read)?;
    print!("{}", rewrite(address(words.get(2), 0x40_1000)?, &code, address(words.get(3), 0x50_0000)?)?);
    Ok(())
}
