//! No call panics: every call with numbers at the borders of their types, with empty and with long bytes.

use feddurzai::{
    assemble, basic_blocks, flow_graph, jump, line_text, look, move_blocks, move_code, move_code_outside, read_intel,
    step, step_len, Block, Code, ConstantOffsets, CpuidFeatures, Decoder, DecoderOptions, Detour, DetourRules,
    DetourStart, Encoder, FormatterSyntax, Instruction, InstructionInfoFactory, Jump, MemoryOperand, Operand, Region,
    Register, StartRule, StepSlots,
};

const BITNESSES: [u32; 9] = [0, 1, 15, 16, 32, 63, 64, 128, u32::MAX];
const ADDRESSES: [u64; 10] =
    [0, 1, 0x7FFF, 0xFFFF, 0x1_0000, 0x7FFF_FFFF, 0xFFFF_FFFF, 0x7FFF_FFFF_FFFF_FFFF, 0x8000_0000_0000_0000, u64::MAX];
const CODES: [&[u8]; 8] = [
    b"",
    b"\x90",
    b"\x06",
    b"\x48",
    b"\xE8\xFB\x0F\x00\x00\xC3",
    b"\x74\xFE\x48\x8D\x05\xFF\xFF\xFF\x7F\xC3",
    b"\x67\xE3\xFD\xE2\xFB\xFF\x25\x00\x00\x00\x00\x90\x90\x90\x90\xC3",
    b"\x66\x66\x66\x66\x66\x66\x66\x66\x66\x66\x66\x66\x66\x66\x66\x66\x90",
];
const STYLES: [FormatterSyntax; 3] = [FormatterSyntax::Intel, FormatterSyntax::Gas, FormatterSyntax::Masm];

#[test]
fn bytes_and_addresses() {
    for &bitness in &BITNESSES {
        for &ip in &ADDRESSES {
            for code in CODES {
                let mut decoder = Decoder::with_ip(bitness, code, ip, DecoderOptions::NONE);
                let total: usize = decoder.iter().map(|one| one.len()).sum();
                assert_eq!(total, code.len());
                decoder.set_ip(u64::MAX);
                let _ = (decoder.set_position(usize::MAX), decoder.decode(), decoder.ip());
                let _ = ConstantOffsets::of(bitness, code);
                let _ = (flow_graph(bitness, ip, code, &[0, u32::MAX]), basic_blocks(bitness, ip, code));
                for syntax in STYLES {
                    let _ = line_text(bitness, syntax, ip, code);
                }
            }
            for text in ["", "nop", "je 0xffffffffffffffff", "\u{FFFF}"] {
                let _ = (assemble(bitness, ip, text), read_intel(bitness, ip, text));
            }
        }
    }
}

#[test]
fn moves_and_hooks() {
    for &bitness in &BITNESSES {
        for &ip in &ADDRESSES {
            for &place in &ADDRESSES {
                for code in CODES {
                    let _ = (move_code(bitness, ip, code, place), move_code_outside(bitness, ip, code, place));
                    let _ = move_blocks(bitness, &[Block::new(ip, code, place), Block::new(place, code, ip)]);
                    let _ = (step(bitness, ip, code, place), step_len(bitness, ip, code, place));
                    for start in [DetourStart::Moved, DetourStart::Hooked] {
                        let _ = Detour::new(bitness, ip, code, !place, place, start);
                        let rules = DetourRules { entries: &[0, 3, u32::MAX], returns: true, ..DetourRules::default() };
                        let _ = Detour::with_rules(bitness, ip, code, !place, place, start, rules);
                    }
                }
                for rule in [StartRule::Open, StartRule::Closed] {
                    let _ = look(bitness, ip, CODES[5], &[2, u32::MAX], place as usize, &[0, u32::MAX], rule);
                }
                for form in [Jump::Short, Jump::Near, Jump::Far, Jump::CallNear, Jump::CallFar] {
                    let _ = jump(bitness, ip, place, form);
                }
            }
            for size in [0, 16, 64, 1 << 20, (1 << 20) + 16, u64::MAX, u64::MAX - 15] {
                for most in [0, 1, 65536, usize::MAX] {
                    if let Ok(mut region) = Region::new(ip, size, most) {
                        let _ = (region.reserve(u64::MAX), region.release(ip), region.fill(u64::MAX, &[0; 99]));
                        if let Ok(place) = region.reserve(size) {
                            assert_eq!(place, ip);
                        }
                    }
                    if let Ok(mut slots) = StepSlots::new(bitness, ip, size, most) {
                        let _ = (slots.step(u64::MAX, b"\xEB\xFE"), slots.finish(u64::MAX));
                    }
                }
            }
        }
    }
}

#[test]
fn constructed_instructions() {
    let values = [0, 1, 0x7F, 0x80, 0xFF, 0xFFFF, u64::MAX, i64::MIN as u64, 0x8000_0000];
    let mut operands: Vec<Operand> = values.iter().map(|&value| Operand::from(value)).collect();
    operands.extend(values.iter().map(|&value| Operand::NearBranch(value)));
    operands.push(Operand::FarBranch { selector: u16::MAX, offset: u32::MAX });
    for register in
        [Register::None, Register::AH, Register::R15, Register::EIP, Register::RIP, Register::XMM9, Register::ST0]
    {
        operands.push(register.into());
        for scale in [0, 1, 8, u32::MAX] {
            for size in [0, 1, 2, 4, 8, 255, u32::MAX] {
                operands.push(MemoryOperand::new(register, Register::RCX, scale, i64::MIN, size, register).into());
            }
        }
    }
    let mut factory = InstructionInfoFactory::new();
    for code in Code::values().step_by(7) {
        for operand in &operands {
            for list in [&[*operand][..], &[Operand::from(Register::EAX), *operand][..]] {
                if let Ok(mut made) = Instruction::with_operands(code, list) {
                    for &bitness in &BITNESSES {
                        let _ =
                            (made.set_bitness(bitness), made.encoded(bitness, u64::MAX), made.encoded_len(bitness, 0));
                    }
                    made.set_has_lock_prefix(true);
                    made.set_has_rep_prefix(true);
                    made.set_segment_prefix(Register::GS);
                    made.set_ip(u64::MAX);
                    let _ = (made.to_string(), made.next_ip(), made.memory_size(), made.flow_control());
                    let _ = (factory.info(&made).used_registers().len(), made.rflags_modified());
                    made.set_code(Code::INVALID);
                    assert_eq!(made.to_string(), "(bad)");
                }
            }
        }
    }
    assert!(CpuidFeatures::default().is_empty());
}

#[test]
fn encoders_of_any_bitness() {
    for &bitness in &BITNESSES {
        let mut encoder = Encoder::new(bitness);
        for code in Code::values().step_by(11) {
            if let Ok(made) = Instruction::with(code) {
                let before = encoder.clone().take_buffer().len();
                match encoder.encode(&made, u64::MAX) {
                    Ok(len) => assert_eq!(encoder.clone().take_buffer().len(), before + len),
                    Err(_) => assert_eq!(encoder.clone().take_buffer().len(), before),
                }
            }
        }
    }
}
