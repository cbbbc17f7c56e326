//! Prints what instructions do: flow, registers, memory, flags, CPUID features, and the parts of their bytes.

use feddurzai::{Decoder, DecoderOptions, InstructionInfoFactory, OpKind, RflagsBits};
use std::fmt::Write;

#[path = "disassemble.rs"]
mod disassemble;

/// The names of the flags of a set.
pub fn flags_of(set: u32) -> String {
    let names = [
        (RflagsBits::OF, "OF"),
        (RflagsBits::SF, "SF"),
        (RflagsBits::ZF, "ZF"),
        (RflagsBits::AF, "AF"),
        (RflagsBits::PF, "PF"),
        (RflagsBits::CF, "CF"),
        (RflagsBits::DF, "DF"),
        (RflagsBits::IF, "IF"),
    ];
    let found: Vec<&str> = names.iter().filter(|(bits, _)| set & bits != 0).map(|&(_, name)| name).collect();
    found.join(" ")
}

/// What the instructions of some code do.
pub fn describe(bitness: u32, ip: u64, code: &[u8]) -> Result<String, std::fmt::Error> {
    let mut out = String::new();
    let mut factory = InstructionInfoFactory::new();
    let mut decoder = Decoder::with_ip(bitness, code, ip, DecoderOptions::NONE);
    while decoder.can_decode() {
        let instruction = decoder.decode();
        let offsets = decoder.get_constant_offsets(&instruction);
        let info = factory.info(&instruction);
        writeln!(out, "{:016X} {}", instruction.ip(), instruction)?;
        if let Ok(row) = instruction.code().op_code().instruction() {
            writeln!(out, "    row: {} {:?}", row, instruction.code())?;
        }
        writeln!(out, "    flow: {:?}", info.flow_control())?;
        if offsets.has_displacement() {
            writeln!(out, "    displacement: {} at {}", offsets.displacement_size(), offsets.displacement_offset())?;
        }
        if offsets.has_immediate() {
            writeln!(out, "    immediate: {} at {}", offsets.immediate_size(), offsets.immediate_offset())?;
        }
        for at in 0..instruction.op_count() {
            write!(out, "    operand {}: {:?} {:?}", at, instruction.op_kind(at), info.op_access(at))?;
            match instruction.op_kind(at) {
                OpKind::Memory => writeln!(out, ", {} bytes", instruction.memory_size())?,
                OpKind::NearBranch => writeln!(out, ", {:#x}", instruction.near_branch_target())?,
                _ => writeln!(out)?,
            }
        }
        for used in info.used_registers() {
            writeln!(out, "    register: {:?} {:?}", used.register(), used.access())?;
        }
        for used in info.used_memory() {
            writeln!(
                out,
                "    memory: {:?}:[{:?}+{:?}*{}+{:#x}] {} {:?}",
                used.segment(),
                used.base(),
                used.index(),
                used.scale(),
                used.displacement(),
                used.memory_size(),
                used.access()
            )?;
        }
        let sets = [
            ("read", info.rflags_read()),
            ("written", info.rflags_written()),
            ("cleared", info.rflags_cleared()),
            ("set", info.rflags_set()),
            ("undefined", info.rflags_undefined()),
        ];
        for (what, set) in sets {
            if set != 0 {
                writeln!(out, "    flags {}: {}", what, flags_of(set))?;
            }
        }
        if !info.cpuid_features().is_empty() {
            writeln!(out, "    needs: {}", info.cpuid_features())?;
        }
    }
    Ok(out)
}

#[allow(dead_code)]
fn main() -> Result<(), std::fmt::Error> {
    print!("{}", describe(disassemble::BITNESS, disassemble::CODE_RIP, disassemble::CODE)?);
    Ok(())
}
