//! Moves the first instructions of a function, and jumps from there back to the rest: what a hook does.
//!
//! `feddurzai::Detour` does all of this, and refuses a function whose own branches enter the overwritten bytes. This
//! example shows the parts.

use feddurzai::{
    jump, BlockEncoder, BlockEncoderOptions, Decoder, DecoderOptions, Error, FlowControl, Instruction,
    InstructionBlock, Jump,
};

#[path = "disassemble.rs"]
mod disassemble;

/// The patch of the function, and the moved code with its jump back.
pub struct Moved {
    pub patch: Vec<u8>,
    pub code: Vec<u8>,
}

/// Moves as many instructions as a jump to `to` overwrites, to `place`.
pub fn move_front(bitness: u32, ip: u64, function: &[u8], to: u64, place: u64) -> Result<Moved, Error> {
    let mut patch = jump(bitness, ip, to, Jump::Far)?.to_vec();
    // the instructions that the jump overwrites, whole
    let mut taken: Vec<Instruction> = Vec::new();
    let mut len = 0;
    for instruction in Decoder::try_with_ip(bitness, function, ip, DecoderOptions::NONE)? {
        if len >= patch.len() {
            break;
        }
        if instruction.is_invalid() {
            return Err(Error::Invalid { at: len as u64 });
        }
        len += instruction.len();
        match instruction.flow_control() {
            // control must reach the jump back
            FlowControl::UnconditionalBranch | FlowControl::IndirectBranch | FlowControl::Return
                if len < patch.len() =>
            {
                return Err(Error::Ends { at: len as u64 })
            }
            _ => taken.push(instruction),
        }
    }
    if len < patch.len() {
        return Err(Error::Small { function: len as u64, jump: patch.len() as u64 });
    }
    patch.resize(len, 0xCC);

    let moved = BlockEncoder::encode(bitness, InstructionBlock::new(&taken, place), BlockEncoderOptions::NONE)?;
    if moved.code_len != moved.code_buffer.len() {
        // slots follow the code: there is no space for the jump back
        return Err(Error::TooFar { instruction: 0, target: ip });
    }
    let mut code = moved.code_buffer;
    let back_at = place.wrapping_add(code.len() as u64);
    let back_to = ip.wrapping_add(len as u64);
    code.extend_from_slice(&jump(bitness, back_at, back_to, Jump::Far)?);
    Ok(Moved { patch, code })
}

/// The moved front of the function of the example `disassemble`, by its texts.
pub fn moved_lines() -> Result<Vec<String>, Error> {
    let place = disassemble::CODE_RIP + 0x20_0000;
    let moved = move_front(disassemble::BITNESS, disassemble::CODE_RIP, disassemble::CODE, 0x1234_5678_9ABC, place)?;
    let mut lines = Vec::new();
    for (ip, code) in [(disassemble::CODE_RIP, &moved.patch), (place, &moved.code)] {
        let mut decoder = Decoder::with_ip(disassemble::BITNESS, code, ip, DecoderOptions::NONE);
        for instruction in &mut decoder {
            lines.push(format!("{:016X} {}", instruction.ip(), instruction));
            if instruction.flow_control() == FlowControl::IndirectBranch {
                // the address of the jump follows it
                break;
            }
        }
        let address: String = code[decoder.position()..].iter().map(|byte| format!("{:02X}", byte)).collect();
        lines.push(format!("{:016X} {}", decoder.ip(), address));
    }
    Ok(lines)
}

#[allow(dead_code)]
fn main() -> Result<(), Error> {
    for line in moved_lines()? {
        println!("{}", line);
    }
    Ok(())
}
