//! Decoding: bytes, lengths, operands and targets as objdump 2.40 and the Intel SDM give them.

use feddurzai::{
    Code, Decoder, DecoderError, DecoderOptions, Error, FlowControl, Instruction, MemoryOperand, Mnemonic, OpKind,
    Operand, Register,
};

fn decode(bitness: u32, ip: u64, code: &[u8]) -> Instruction {
    Decoder::with_ip(bitness, code, ip, DecoderOptions::NONE).decode()
}

/// Bytes with the mnemonic and the operands that objdump prints, the address as a register, a scale and a displacement.
#[test]
fn instructions_are_those_of_objdump() {
    use Register as R;
    let register = Operand::Register;
    let immediate = Operand::Immediate;
    let memory = |base, index, scale, displacement, displ_size, segment| {
        Operand::Memory(MemoryOperand::new(base, index, scale, displacement, displ_size, segment))
    };
    let none = R::None;
    let table: &[(&[u8], Mnemonic, &[Operand])] = &[
        (b"\x48\x89\x5C\x24\x10", Mnemonic::Mov, &[memory(R::RSP, none, 1, 0x10, 1, none), register(R::RBX)]),
        (
            b"\x48\x8D\x05\x78\x7C\x04\x00",
            Mnemonic::Lea,
            &[register(R::RAX), memory(R::RIP, none, 1, 0x47C7F, 4, none)],
        ),
        (
            b"\x64\x8B\x04\x25\x28\x00\x00\x00",
            Mnemonic::Mov,
            &[register(R::EAX), memory(none, none, 1, 0x28, 4, R::FS)],
        ),
        (b"\x83\xC0\x05", Mnemonic::Add, &[register(R::EAX), immediate(5)]),
        (b"\xF0\x0F\xC1\x4C\xB7\xF8", Mnemonic::Xadd, &[memory(R::RDI, R::RSI, 4, -8, 1, none), register(R::ECX)]),
        (b"\xFF\xE0", Mnemonic::Jmp, &[register(R::RAX)]),
        (b"\xFF\x25\x10\x00\x00\x00", Mnemonic::Jmp, &[memory(R::RIP, none, 1, 0x16, 4, none)]),
        (
            b"\xC5\xEC\x58\x08",
            Mnemonic::Vaddps,
            &[register(R::YMM1), register(R::YMM2), memory(R::RAX, none, 1, 0, 0, none)],
        ),
        (b"\x0F\xB6\x8B\x80\x00\x00\x00", Mnemonic::Movzx, &[register(R::ECX), memory(R::RBX, none, 1, 0x80, 4, none)]),
        (b"\x48\x6B\xC1\x64", Mnemonic::Imul, &[register(R::RAX), register(R::RCX), immediate(0x64)]),
        (b"\xD3\xE2", Mnemonic::Shl, &[register(R::EDX), register(R::CL)]),
        (b"\xDC\xC1", Mnemonic::Fadd, &[register(R::ST1), register(R::ST0)]),
        (b"\x6A\xFF", Mnemonic::Push, &[immediate(0xFFFF_FFFF_FFFF_FFFF)]),
        (b"\x41\xB7\x7F", Mnemonic::Mov, &[register(R::R15L), immediate(0x7F)]),
        (
            b"\x48\xB8\x88\x77\x66\x55\x44\x33\x22\x11",
            Mnemonic::Mov,
            &[register(R::RAX), immediate(0x1122_3344_5566_7788)],
        ),
        (b"\x66\x41\x0F\x70\xC1\x1B", Mnemonic::Pshufd, &[register(R::XMM0), register(R::XMM9), immediate(0x1B)]),
        (b"\x4D\x0F\x45\xC1", Mnemonic::Cmovne, &[register(R::R8), register(R::R9)]),
        (b"\xC8\x10\x00\x02", Mnemonic::Enter, &[immediate(0x10), immediate(2)]),
        (b"\x41\x0F\xCC", Mnemonic::Bswap, &[register(R::R12D)]),
        (b"\xC2\x08\x00", Mnemonic::Ret, &[immediate(8)]),
        (b"\x0F\x05", Mnemonic::Syscall, &[]),
        (b"\x0F\x0B", Mnemonic::Ud2, &[]),
        (b"\xF3\x0F\x1E\xFA", Mnemonic::Endbr64, &[]),
        (b"\x48\x0F\xC7\x0F", Mnemonic::Cmpxchg16b, &[memory(R::RDI, none, 1, 0, 0, none)]),
        (
            b"\xC4\xE2\x69\x90\x04\x88",
            Mnemonic::Vpgatherdd,
            &[register(R::XMM0), memory(R::RAX, R::XMM1, 4, 0, 0, none), register(R::XMM2)],
        ),
        (b"\x0F\x22\xC0", Mnemonic::Mov, &[register(R::CR0), register(R::RAX)]),
    ];
    for (bytes, mnemonic, operands) in table {
        let instruction = decode(64, 0, bytes);
        assert_eq!(instruction.mnemonic(), *mnemonic, "{:02x?}", bytes);
        assert_eq!(instruction.operands().collect::<Vec<_>>(), *operands, "{}", instruction);
        assert_eq!((instruction.len(), instruction.bytes()), (bytes.len(), *bytes), "{}", instruction);
        assert_eq!(instruction.op_count() as usize, operands.len(), "{}", instruction);
        // the bytes are already the shortest ones
        assert_eq!(instruction.encoded(64, 0).as_deref(), Ok(*bytes), "{}", instruction);
    }
}

/// The prefixes LOCK, REP and REPNE, and a segment (SDM volume 2, 2.1.1).
#[test]
fn prefixes_are_reported() {
    assert!(decode(64, 0, b"\xF0\x0F\xC1\x4C\xB7\xF8").has_lock_prefix());
    let movs = decode(64, 0, b"\xF3\xA4");
    assert!(movs.has_rep_prefix() && movs.has_repe_prefix() && !movs.has_repne_prefix() && !movs.has_lock_prefix());
    assert_eq!((movs.code(), movs.address_size()), (Code::Movsb_m8_m8, 64));
    assert!(decode(64, 0, b"\xF2\xAE").has_repne_prefix());
    let tls = decode(64, 0, b"\x64\x8B\x04\x25\x28\x00\x00\x00");
    assert_eq!((tls.segment_prefix(), tls.has_segment_prefix(), tls.memory_size()), (Register::FS, true, 4));
    assert_eq!((tls.memory_base(), tls.memory_displacement32()), (Register::None, 0x28));
}

/// Targets are absolute: objdump prints the same for code at 0x1000.
#[test]
fn targets_are_absolute() {
    let je = decode(64, 0x1000, b"\x74\x10");
    assert_eq!((je.near_branch_target(), je.op0_kind()), (0x1012, OpKind::NearBranch));
    assert_eq!(je.flow_control(), FlowControl::ConditionalBranch);
    let call = decode(64, 0x1000, b"\xE8\xFB\x0F\x00\x00");
    assert_eq!((call.near_branch64(), call.code()), (0x2000, Code::Call_rel32_64));
    let jmp = decode(64, 0x1000, b"\xFF\x25\x10\x00\x00\x00");
    assert!(jmp.is_ip_rel_memory_operand());
    assert_eq!((jmp.ip_rel_memory_address(), jmp.flow_control()), (0x1016, FlowControl::IndirectBranch));
    // backwards over 0, modulo the address space of each mode
    for (bitness, target) in [(64, 0xFFFF_FFFF_FFFF_FFF2), (32, 0xFFFF_FFF2), (16, 0xFFF2)] {
        assert_eq!(decode(bitness, 0, b"\xEB\xF0").near_branch_target(), target, "{}", bitness);
    }
}

/// The same bytes in the other modes, as objdump -m i386 and -m i8086 list them.
#[test]
fn modes_differ() {
    let code = b"\xEA\x78\x56\x34\x12\x23\x00\x06\x62\x03\x67\x8B\x00\xE8\x10\x00\x00\x00";
    let list = |bitness| -> Vec<(Code, usize)> {
        Decoder::new(bitness, code, DecoderOptions::NONE).into_iter().map(|one| (one.code(), one.len())).collect()
    };
    assert_eq!(
        list(32),
        [
            (Code::Jmp_ptr1632, 7),
            (Code::Pushd_ES, 1),
            (Code::Bound_r32_m3232, 2),
            (Code::Mov_r32_rm32, 3),
            (Code::Call_rel32_32, 5)
        ]
    );
    assert_eq!(
        list(16)[..6],
        [
            (Code::Jmp_ptr1616, 5),
            (Code::And_r16_rm16, 2),
            (Code::Pushw_ES, 1),
            (Code::Bound_r16_m1616, 2),
            (Code::Mov_r16_rm16, 3),
            (Code::Call_rel16, 3)
        ]
    );
    let far = decode(32, 0, code);
    assert_eq!((far.far_branch_selector(), far.far_branch32()), (0x23, 0x1234_5678));
    assert_eq!(far.operand(0), Some(Operand::FarBranch { selector: 0x23, offset: 0x1234_5678 }));
    // in 64-bit mode EA and 06 begin no instruction (SDM volume 2, JMP and PUSH)
    assert!(decode(64, 0, code).is_invalid() && decode(64, 0, b"\x06").is_invalid());
}

#[test]
fn what_is_no_instruction_has_one_byte() {
    let mut decoder = Decoder::with_ip(64, b"\x06\x90\x48\x83", 0x1000, DecoderOptions::NONE);
    let found: Vec<_> = decoder.iter().map(|one| (one.ip(), one.len(), one.is_invalid(), one.to_string())).collect();
    assert_eq!(
        found,
        [
            (0x1000, 1, true, "(bad)".to_string()),
            (0x1001, 1, false, "nop".to_string()),
            (0x1002, 1, true, "(bad)".to_string()),
            (0x1003, 1, true, "(bad)".to_string())
        ]
    );
    assert_eq!(decoder.last_error(), DecoderError::NoMoreBytes);
    assert_eq!((decoder.position(), decoder.ip(), decoder.can_decode()), (4, 0x1004, false));
    // at the end there is nothing, and nothing is taken
    let end = decoder.decode();
    assert_eq!((end.is_invalid(), end.len(), decoder.position()), (true, 0, 4));
    assert!(decoder.iter().next().is_none());
}

#[test]
fn positions_and_addresses_are_set() {
    let code = b"\x90\xEB\x00\xC3";
    let mut decoder = Decoder::with_ip(32, code, 0xFFFF_FFFF, DecoderOptions::NONE);
    assert_eq!(decoder.decode().next_ip(), 0);
    assert_eq!((decoder.ip(), decoder.position(), decoder.max_position(), decoder.bitness()), (0, 1, 4, 32));
    assert_eq!(decoder.decode().near_branch_target(), 2);
    assert_eq!(decoder.set_position(1), Ok(()));
    decoder.set_ip(0x500);
    assert_eq!(decoder.decode().near_branch_target(), 0x502);
    assert_eq!(decoder.set_position(5), Err(Error::TooShort { at: 5 }));
    assert_eq!(decoder.position(), 3);
    assert_eq!(decoder.set_position(4), Ok(()));
    assert!(!decoder.can_decode());
}

#[test]
fn another_bitness_decodes_nothing() {
    for bitness in [0, 8, 17, 128, u32::MAX] {
        assert_eq!(Decoder::try_new(bitness, b"\x90", DecoderOptions::NONE).err(), Some(Error::BadMode));
        let mut decoder = Decoder::with_ip(bitness, b"\x90\x90", u64::MAX, DecoderOptions::NONE);
        assert_eq!(decoder.last_error(), DecoderError::Unusable);
        assert!(decoder.iter().all(|one| one.is_invalid()));
        assert_eq!(decoder.last_error(), DecoderError::Unusable);
        assert_eq!(decoder.decode_many(&mut [Instruction::default()]), 0);
    }
}

/// All ways to decode find the same, over bytes of every kind.
#[test]
fn one_by_one_and_many_at_once() {
    let mut code = Vec::new();
    let mut seed = 1_u32;
    for _ in 0..5000 {
        seed = seed.wrapping_mul(1_664_525).wrapping_add(1_013_904_223);
        code.push((seed >> 24) as u8);
    }
    for bitness in [16, 32, 64] {
        let single: Vec<_> = Decoder::with_ip(bitness, &code, 0x7000, DecoderOptions::NONE).into_iter().collect();
        let mut many = vec![Instruction::default(); code.len()];
        let mut decoder = Decoder::with_ip(bitness, &code, 0x7000, DecoderOptions::NONE);
        let count = decoder.decode_many(&mut many);
        assert_eq!((count, decoder.position()), (single.len(), code.len()));
        for (one, other) in single.iter().zip(&many) {
            assert_eq!((one, one.ip(), one.bytes()), (other, other.ip(), other.bytes()));
        }
        assert_eq!(single.iter().map(Instruction::len).sum::<usize>(), code.len());
        assert!(single.iter().any(Instruction::is_invalid) && single.iter().any(|one| !one.is_invalid()));
    }
}

/// The offsets of displacement and immediate of C7 /0 and of B8 (SDM volume 2, figure 2-1).
#[test]
fn constants_have_offsets() {
    let mut decoder = Decoder::new(64, b"\x66\xC7\x84\x24\x01\x02\x03\x04\x34\x12", DecoderOptions::NONE);
    let mov = decoder.decode();
    let offsets = decoder.get_constant_offsets(&mov);
    assert_eq!((offsets.displacement_offset(), offsets.displacement_size()), (4, 4));
    assert_eq!((offsets.immediate_offset(), offsets.immediate_size(), offsets.immediate_size2()), (8, 2, 0));
    assert_eq!(
        (offsets.prefixes().size, offsets.opcode().offset, offsets.modrm().offset, offsets.sib().offset),
        (1, 1, 2, 3)
    );
    assert!(offsets.has_displacement() && offsets.has_immediate() && offsets.lead().size == 0);
    // enter 0x10, 0x2 has two
    let mut decoder = Decoder::new(64, b"\xC8\x10\x00\x02", DecoderOptions::NONE);
    let enter = decoder.decode();
    let offsets = decoder.get_constant_offsets(&enter);
    assert_eq!((offsets.immediate_size(), offsets.immediate_offset2(), offsets.immediate_size2()), (2, 3, 1));
}

#[test]
fn getters_of_what_is_absent() {
    let nop = decode(64, 0, b"\x90");
    assert_eq!(
        (nop.op_kind(0), nop.op_kind(u32::MAX), nop.op_register(9)),
        (OpKind::None, OpKind::None, Register::None)
    );
    assert_eq!((nop.operand(0), nop.operand(u32::MAX), nop.immediate(3)), (None, None, 0));
    assert_eq!((nop.memory_base(), nop.memory_index(), nop.memory_index_scale()), (Register::None, Register::None, 1));
    assert_eq!((nop.near_branch_target(), nop.ip_rel_memory_address(), nop.far_branch_selector()), (0, 0, 0));
    assert_eq!((nop.memory_size(), nop.segment_prefix(), nop.immediate64()), (0, Register::None, 0));
    let none = Instruction::new();
    assert_eq!(
        (none.len(), none.bytes(), none.code(), none.mnemonic()),
        (0, &[][..], Code::INVALID, Mnemonic::INVALID)
    );
    assert_eq!(
        (none.flow_control(), none.rflags_modified(), none.cpuid_features().is_empty()),
        (FlowControl::Next, 0, true)
    );
}
