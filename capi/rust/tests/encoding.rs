//! Constructed instructions and the encoder: bytes as the Intel SDM gives them and GNU as 2.40 writes them.

use feddurzai::{
    assemble, assemble_code, assemble_code_near, jump, read_intel, Cause, Code, Encoder, Error, Instruction, Jump,
    MemoryOperand, Mnemonic, OpKind, Operand, Register,
};

fn bytes_of(made: Result<Instruction, Error>) -> Vec<u8> {
    let made = made.unwrap();
    made.encoded(made.bitness(), 0).unwrap().to_vec()
}

#[test]
fn constructed_instructions_have_the_bytes_of_the_assembler() {
    use Register as R;
    let m = MemoryOperand::with_base;
    let d = MemoryOperand::with_base_displ;
    let two = |code, a: Operand, b: Operand| bytes_of(Instruction::with2(code, a, b));
    let of = |value: i64| Operand::from(value);

    assert_eq!(bytes_of(Instruction::with1(Code::Push_r64, R::R8)), b"\x41\x50");
    assert_eq!(bytes_of(Instruction::with1(Code::Pushq_imm8, -1)), b"\x6A\xFF");
    assert_eq!(bytes_of(Instruction::with1(Code::Pushq_imm32, 0x1234_5678)), b"\x68\x78\x56\x34\x12");
    assert_eq!(bytes_of(Instruction::with1(Code::Retnq_imm16, 8)), b"\xC2\x08\x00");
    assert_eq!(two(Code::Mov_rm64_r64, d(R::RSP, 0x10).into(), R::RBX.into()), b"\x48\x89\x5C\x24\x10");
    assert_eq!(two(Code::Mov_r64_rm64, R::RAX.into(), m(R::RBP).into()), b"\x48\x8B\x45\x00");
    assert_eq!(two(Code::Mov_r64_rm64, R::RAX.into(), m(R::R12).into()), b"\x49\x8B\x04\x24");
    assert_eq!(two(Code::Mov_r64_rm64, R::RAX.into(), d(R::RBX, 0x80).into()), b"\x48\x8B\x83\x80\x00\x00\x00");
    assert_eq!(two(Code::Mov_r64_rm64, R::RAX.into(), d(R::RBX, -0x80).into()), b"\x48\x8B\x43\x80");
    assert_eq!(two(Code::Mov_r64_imm64, R::RAX.into(), of(-2)), b"\x48\xB8\xFE\xFF\xFF\xFF\xFF\xFF\xFF\xFF");
    assert_eq!(two(Code::Mov_rm64_imm32, R::RAX.into(), of(-2)), b"\x48\xC7\xC0\xFE\xFF\xFF\xFF");
    assert_eq!(two(Code::Mov_r32_imm32, R::EAX.into(), of(-2)), b"\xB8\xFE\xFF\xFF\xFF");
    assert_eq!(two(Code::Add_rm32_imm8, R::EAX.into(), of(-1)), b"\x83\xC0\xFF");
    assert_eq!(two(Code::Add_rm64_imm8, R::RAX.into(), of(-1)), b"\x48\x83\xC0\xFF");
    assert_eq!(two(Code::Add_rm8_imm8, R::AL.into(), of(-1)), b"\x80\xC0\xFF");
    assert_eq!(two(Code::Mov_r8_imm8, R::R15L.into(), of(0x7F)), b"\x41\xB7\x7F");
    assert_eq!(two(Code::Mov_r8_rm8, R::AH.into(), R::DH.into()), b"\x8A\xE6");
    assert_eq!(two(Code::Movzx_r32_rm8, R::ECX.into(), d(R::RBX, 0x80).into()), b"\x0F\xB6\x8B\x80\x00\x00\x00");
    assert_eq!(two(Code::Mov_cr_r, R::CR0.into(), R::RAX.into()), b"\x0F\x22\xC0");
    assert_eq!(bytes_of(Instruction::with3(Code::Imul_r64_rm64_imm8, R::RAX, R::RCX, 100)), b"\x48\x6B\xC1\x64");
    assert_eq!(
        bytes_of(Instruction::with3(Code::VEX_Vaddps_ymm_ymm_ymmm256, R::YMM1, R::YMM2, m(R::RAX))),
        b"\xC5\xEC\x58\x08"
    );
    assert_eq!(
        bytes_of(Instruction::with3(
            Code::VEX_Vpgatherdd_xmm_vm32x_xmm,
            R::XMM0,
            MemoryOperand::with_base_index_scale(R::RAX, R::XMM1, 4),
            R::XMM2
        )),
        b"\xC4\xE2\x69\x90\x04\x88"
    );
    assert_eq!(bytes_of(Instruction::with2(Code::Fadd_sti_st0, R::ST1, R::ST0)), b"\xDC\xC1");
    assert_eq!(bytes_of(Instruction::with2(Code::Enterq_imm16_imm8, 0x10, 2)), b"\xC8\x10\x00\x02");
    assert_eq!(bytes_of(Instruction::with(Code::Cpuid)), b"\x0F\xA2");
    // string instructions have an address size without a memory operand
    let mut movs = Instruction::with(Code::Movsb_m8_m8).unwrap();
    movs.set_has_rep_prefix(true);
    assert_eq!(movs.encoded(64, 0).as_deref(), Ok(&b"\xF3\xA4"[..]));
    assert_eq!(movs.to_string(), "rep movsb");
}

#[test]
fn memory_has_every_form() {
    use Register as R;
    let lea = |memory: MemoryOperand| bytes_of(Instruction::with2(Code::Lea_r64_m, R::RAX, memory));
    assert_eq!(lea(MemoryOperand::with_base_index(R::RBX, R::RCX)), b"\x48\x8D\x04\x0B");
    assert_eq!(lea(MemoryOperand::with_base_index_scale(R::RBX, R::R9, 8)), b"\x4A\x8D\x04\xCB");
    assert_eq!(lea(MemoryOperand::with_base_index_scale_displ_size(R::RBX, R::RCX, 4, -8, 1)), b"\x48\x8D\x44\x8B\xF8");
    // a displacement of 4 bytes although 1 is enough
    assert_eq!(
        lea(MemoryOperand::with_base_index_scale_displ_size(R::RBX, R::RCX, 4, -8, 4)),
        b"\x48\x8D\x84\x8B\xF8\xFF\xFF\xFF"
    );
    assert_eq!(
        lea(MemoryOperand::with_index_scale_displ_size(R::RCX, 8, 0x10, 1)),
        b"\x48\x8D\x04\xCD\x10\x00\x00\x00"
    );
    assert_eq!(lea(MemoryOperand::with_displ(0x28, 4)), b"\x48\x8D\x04\x25\x28\x00\x00\x00");
    // RIP: the displacement is the absolute address, here for the instruction at 0
    assert_eq!(lea(MemoryOperand::with_base_displ(R::RIP, 0x1007)), b"\x48\x8D\x05\x00\x10\x00\x00");
    // 32-bit and 16-bit addresses
    assert_eq!(lea(MemoryOperand::with_base(R::EBX)), b"\x67\x48\x8D\x03");
    let mut mov = Instruction::with2(Code::Mov_r16_rm16, R::AX, MemoryOperand::with_base_index(R::BX, R::SI)).unwrap();
    assert_eq!((mov.bitness(), mov.address_size()), (32, 16));
    assert_eq!(mov.encoded(32, 0).as_deref(), Ok(&b"\x66\x67\x8B\x00"[..]));
    assert_eq!(mov.set_bitness(16), Ok(()));
    assert_eq!(mov.encoded(16, 0).as_deref(), Ok(&b"\x8B\x00"[..]));
    assert_eq!(mov.set_bitness(20), Err(Error::BadMode));
    let fs = MemoryOperand::new(R::None, R::None, 1, 0x28, 4, R::FS);
    assert_eq!(bytes_of(Instruction::with2(Code::Mov_r32_rm32, R::EAX, fs)), b"\x64\x8B\x04\x25\x28\x00\x00\x00");
}

#[test]
fn operands_that_the_row_does_not_take_are_refused() {
    use Register as R;
    let no = |cause, operand| Err(Error::NoEncoding { cause, operand });
    assert_eq!(Instruction::with1(Code::Push_r64, 5), no(Cause::Kind, Some(0)));
    assert_eq!(Instruction::with1(Code::Push_r64, R::EAX), no(Cause::Register, Some(0)));
    assert_eq!(Instruction::with1(Code::Push_r64, R::None), Err(Error::BadInstruction));
    assert_eq!(Instruction::with2(Code::Add_rm8_imm8, R::AL, 0x100), no(Cause::Immediate, Some(1)));
    assert_eq!(Instruction::with2(Code::Add_rm8_imm8, R::AL, -0x100), no(Cause::Immediate, Some(1)));
    assert_eq!(Instruction::with2(Code::Add_rm8_imm8, R::AL, u64::MAX - 0x8000), no(Cause::Immediate, Some(1)));
    assert!(Instruction::with(Code::Push_r64).is_err());
    assert!(Instruction::with2(Code::Push_r64, R::RAX, R::RAX).is_err());
    assert_eq!(Instruction::with(Code::INVALID), Err(Error::BadCode));
    assert_eq!(Instruction::with_operands(Code::Retnq, &[Operand::Immediate(0); 5]), Err(Error::BadForm));
    let lea = |memory: MemoryOperand| Instruction::with2(Code::Lea_r64_m, R::RAX, memory);
    for scale in [0, 3, 16, u32::MAX] {
        assert!(lea(MemoryOperand::with_base_index_scale(R::RBX, R::RCX, scale)).is_err(), "{}", scale);
    }
    for size in [3, 5, 9, u32::MAX] {
        let memory = MemoryOperand::with_base_index_scale_displ_size(R::RBX, R::RCX, 1, 0, size);
        assert!(lea(memory).is_err(), "{}", size);
    }
    assert!(lea(MemoryOperand::with_base_index(R::RBX, R::RSP)).is_err());
    assert!(lea(MemoryOperand::with_base_index(R::RBX, R::ECX)).is_err());
    assert!(lea(MemoryOperand::with_base(R::XMM0)).is_err());
    assert!(lea(MemoryOperand::with_base_displ(R::RBX, i64::MAX)).is_err());
}

#[test]
fn rows_of_other_modes_are_constructed() {
    let pusha = Instruction::with(Code::Pushad).unwrap();
    assert_eq!((pusha.bitness(), pusha.encoded(32, 0).as_deref()), (32, Ok(&b"\x60"[..])));
    assert_eq!(pusha.encoded(64, 0), Err(Error::NoEncoding { cause: Cause::Row, operand: None }));
    let jmp = Instruction::with_branch(Code::Jmp_rel32_32, 0x1234_5678).unwrap();
    assert_eq!((jmp.bitness(), jmp.to_string().as_str()), (32, "jmp 0x12345678"));
    assert_eq!(pusha.encoded(0, 0), Err(Error::BadMode));
    assert_eq!(pusha.encoded_len(u32::MAX, u64::MAX), Err(Error::BadMode));
}

#[test]
fn the_encoder_appends() {
    let mut encoder = Encoder::new(64);
    let nop = Instruction::with(Code::Nopd).unwrap();
    let far = Instruction::with_branch(Code::Jmp_rel8_64, 0x2000).unwrap();
    assert_eq!(encoder.encode(&nop, 0), Ok(1));
    assert_eq!(encoder.encode(&far, 0x1F80), Ok(2));
    assert_eq!(encoder.get_constant_offsets().immediate_offset(), 1);
    assert!(encoder.encode(&far, 0x9000).is_err());
    assert_eq!(encoder.get_constant_offsets().immediate_offset(), 1);
    assert_eq!(encoder.encode(&far, 0), Err(Error::NoEncoding { cause: Cause::Target, operand: Some(0) }));
    encoder.write_u8(0xCC);
    // EB 7E: 127 bytes forward at most, SDM volume 2, JMP
    assert_eq!(encoder.take_buffer(), b"\x90\xEB\x7E\xCC");
    assert_eq!(encoder.take_buffer(), b"");
    encoder.set_buffer(vec![1]);
    assert_eq!(encoder.encode(&nop, u64::MAX), Ok(1));
    assert_eq!((encoder.take_buffer(), encoder.bitness()), (vec![1, 0x90], 64));
    assert_eq!(Encoder::try_new(1).err(), Some(Error::BadMode));
    assert_eq!(Encoder::new(1).encode(&nop, 0), Err(Error::BadMode));
    assert_eq!(
        Encoder::new(64).encode(&Instruction::default(), 0),
        Err(Error::NoEncoding { cause: Cause::Row, operand: None })
    );
}

#[test]
fn changes_are_encoded() {
    let mut je = feddurzai::Decoder::with_ip(64, b"\x74\x10", 0x1000, feddurzai::DecoderOptions::NONE).decode();
    assert_eq!(je.set_near_branch64(0x1080), Ok(()));
    assert_eq!((je.bytes(), je.len()), (&[][..], 0));
    assert_eq!(je.encoded(64, 0x1000).as_deref(), Ok(&b"\x74\x7E"[..]));
    je.set_code(Code::Je_rel32_64);
    assert_eq!(je.encoded_len(64, 0x1000), Ok(6));
    assert_eq!(je.set_op_register(0, Register::RAX), Err(Error::BadForm));
    assert_eq!(je.set_immediate(0, 1), Err(Error::BadForm));
    assert_eq!(je.set_memory_displacement64(1), Err(Error::BadForm));

    let mut mov = read_intel(64, 0, "mov dword [rax+0x8], 0x5").unwrap();
    assert_eq!(mov.set_immediate(1, 6), Ok(()));
    assert_eq!(mov.set_memory_displacement64(0x7F), Ok(()));
    mov.set_segment_prefix(Register::GS);
    assert_eq!(mov.encoded(64, 0).as_deref(), Ok(&b"\x65\xC7\x40\x7F\x06\x00\x00\x00"[..]));
    mov.set_segment_prefix(Register::RAX);
    assert_eq!(mov.segment_prefix(), Register::None);
    assert_eq!(mov.set_near_branch64(0), Err(Error::BadForm));

    let mut xadd = read_intel(64, 0, "xadd dword [rax], ecx").unwrap();
    assert_eq!(xadd.set_op_register(1, Register::R9D), Ok(()));
    xadd.set_has_lock_prefix(true);
    assert_eq!(xadd.encoded(64, 0).as_deref(), Ok(&b"\xF0\x44\x0F\xC1\x08"[..]));
    xadd.set_has_lock_prefix(false);
    assert!(!xadd.has_lock_prefix());
    assert_eq!(xadd.set_op_register(u32::MAX, Register::RAX), Err(Error::BadForm));
    let mut scas = read_intel(64, 0, "scasb").unwrap();
    scas.set_has_repne_prefix(true);
    assert_eq!(scas.encoded(64, 0).as_deref(), Ok(&b"\xF2\xAE"[..]));
}

#[test]
fn equal_instructions() {
    let read = |text| read_intel(64, 0x1000, text).unwrap();
    let mut other = read("inc r8");
    other.set_ip(5);
    assert_eq!(read("inc r8"), other);
    assert_ne!(read("inc r8"), read("inc r9"));
    let set: std::collections::HashSet<Instruction> = [read("inc r8"), other].into_iter().collect();
    assert_eq!(set.len(), 1);
    assert_eq!(
        Instruction::with2(Code::Add_rm32_imm8, Register::EAX, 5),
        Ok(feddurzai::Decoder::new(64, b"\x83\xC0\x05", feddurzai::DecoderOptions::NONE).decode())
    );
}

#[test]
fn texts_are_assembled() {
    assert_eq!(assemble(64, 0x1000, "je 0x1010").as_deref(), Ok(&b"\x74\x0E"[..]));
    assert_eq!(assemble(64, 0, "mov qword [rsp+0x10], rbx").as_deref(), Ok(&b"\x48\x89\x5C\x24\x10"[..]));
    for text in ["push 5", "jz 0x10", "", "\u{0}", "mov  eax, ebx", "\u{1F600}"] {
        assert_eq!(assemble(64, 0, text), Err(Error::NoText), "{}", text);
    }
    assert_eq!(assemble(7, 0, "nop"), Err(Error::BadMode));
    let je = read_intel(64, 0x1000, "je 0x1010").unwrap();
    assert_eq!((je.ip(), je.bytes(), je.mnemonic()), (0x1000, &b"\x74\x0E"[..], Mnemonic::Je));
    assert_eq!((je.len(), je.next_ip(), je.op0_kind()), (2, 0x1002, OpKind::NearBranch));
    assert_eq!(read_intel(64, 0, "nope"), Err(Error::NoText));
}

#[test]
fn routines_are_assembled() {
    let text = "next: dec ecx\n jne next\n  call puts\n end:";
    let made = assemble_code(64, 0x40_1000, text, &[("puts", 0x40_1180)]).unwrap();
    assert_eq!(made.code(), b"\xFF\xC9\x75\xFC\xE8\x77\x01\0\0");
    let labels: Vec<_> = made.labels().iter().map(|label| (label.name(), label.line(), label.address())).collect();
    assert_eq!(labels, [("next", 1, Some(0x40_1000)), ("end", 4, Some(0x40_1009))]);
    assert_eq!((made.slots(), made.address("next"), made.address("puts")), (0, Some(0x40_1000), None));
    for (text, line, column, error) in [
        ("ret\n  mvo eax, 1", 2, 3, Error::NoText),
        ("x: inc [rbx]", 1, 4, Error::NoSize),
        ("db 256", 1, 1, Error::BadData),
        ("jmp there", 1, 1, Error::UnknownName),
        ("x: nop\n x: nop", 2, 2, Error::PlacedTwice),
        ("nop\n movsb: nop", 2, 2, Error::BadLabel),
    ] {
        let refused = assemble_code(64, 0, text, &[]).unwrap_err();
        assert_eq!((refused.line, refused.column, refused.error), (Some(line), Some(column), error), "{}", text);
    }
    for name in ["rax", "", "a b", "a = 1\nb"] {
        let refused = assemble_code(64, 0, "nop", &[("a", 1), (name, 2)]).unwrap_err();
        assert_eq!((refused.line, refused.column, refused.error), (Some(2), None, Error::BadNames), "{}", name);
    }
    let wraps = assemble_code(64, u64::MAX, "nop\nnop", &[]).unwrap_err();
    assert_eq!((wraps.line, wraps.column, wraps.error), (Some(2), Some(1), Error::Wraps { end: 1 }));
    let far = assemble_code(64, 0x8000_1000, "nop\n db 1, 2\nx: lea rax, [rel 0x1007]", &[]).unwrap_err();
    assert_eq!((far.line, far.column), (Some(3), Some(4)));
    assert_eq!(far.error, Error::TooFar { instruction: 3, target: 0x1007 });
    assert_eq!(assemble_code(7, 0, "nop", &[]).unwrap_err().error, Error::BadMode);
    let (text, names) = ("nop\n jmp back", &[("back", 5)]);
    let made = assemble_code(64, 0x8000_0000, text, names).unwrap();
    assert_eq!((made.code().len(), made.slots()), (16, 1));
    let far = assemble_code_near(64, 0x8000_0000, text, names).unwrap_err();
    assert_eq!((far.line, far.column, far.error), (Some(2), Some(2), Error::TooFar { instruction: 1, target: 5 }));
    let near = assemble_code_near(64, 0x8000_0000, "jmp back", names).unwrap();
    assert_eq!((near.code(), near.slots()), (&b"\xE9\0\0\0\x80"[..], 0));
}

/// E9 and E8 with their distance from the end (SDM volume 2, JMP and CALL).
#[test]
fn jumps_have_forms() {
    assert_eq!(jump(64, 0x1000, 0x1010, Jump::Short).as_deref(), Ok(&b"\xEB\x0E"[..]));
    assert_eq!(jump(64, 0x1000, 0x1010, Jump::Near).as_deref(), Ok(&b"\xE9\x0B\x00\x00\x00"[..]));
    assert_eq!(jump(16, 0x1000, 0x1010, Jump::Near).as_deref(), Ok(&b"\xE9\x0D\x00"[..]));
    assert_eq!(jump(32, 0x1000, 0x1010, Jump::CallNear).as_deref(), Ok(&b"\xE8\x0B\x00\x00\x00"[..]));
    assert_eq!(
        jump(64, 0, 0x1122_3344_5566_7788, Jump::Far).as_deref(),
        Ok(&b"\xFF\x25\x00\x00\x00\x00\x88\x77\x66\x55\x44\x33\x22\x11"[..])
    );
    assert_eq!(
        jump(64, 0, 0x1122_3344_5566_7788, Jump::CallFar).as_deref(),
        Ok(&b"\xFF\x15\x02\x00\x00\x00\xEB\x08\x88\x77\x66\x55\x44\x33\x22\x11"[..])
    );
    let far = Error::NoEncoding { cause: Cause::Target, operand: Some(0) };
    assert_eq!(jump(64, 0, 0x1000, Jump::Short), Err(far));
    assert!(matches!(jump(32, 0, 0x1000, Jump::Far), Err(Error::NoEncoding { cause: Cause::Row, .. })));
    assert_eq!(jump(31, 0, 0, Jump::Near), Err(Error::BadMode));
}
