//! Registers, memory, flags, features and rows, as the Intel SDM gives them.

use feddurzai::{
    basic_blocks, flow_graph, Code, CpuidFeature, Decoder, DecoderOptions, Error, FlowControl, InstructionInfoFactory,
    Mnemonic, OpAccess, ReachedKind, Register, RegisterClass, RflagsBits,
};

const STATUS: u32 = 0x8D5;

fn decode(code: &[u8]) -> feddurzai::Instruction {
    Decoder::new(64, code, DecoderOptions::NONE).decode()
}

/// The registers that an instruction uses, with their access.
fn used(code: &[u8]) -> Vec<(Register, OpAccess)> {
    let mut factory = InstructionInfoFactory::new();
    factory.info(&decode(code)).used_registers().iter().map(|used| (used.register(), used.access())).collect()
}

#[test]
fn registers_are_those_of_the_manual() {
    use OpAccess::{CondRead, Read, ReadCondWrite, ReadWrite, Write};
    // push rbx: RSP is decremented
    assert_eq!(used(b"\x53"), [(Register::RBX, Read), (Register::RSP, ReadWrite)]);
    // mul ecx: EDX:EAX receives EAX * ECX
    assert_eq!(used(b"\xF7\xE1"), [(Register::ECX, Read), (Register::EAX, ReadWrite), (Register::EDX, Write)]);
    // rep stosd: ECX counts; nothing is stored if RCX is 0
    let rep = used(b"\xF3\xAB");
    assert!(
        rep.contains(&(Register::EAX, CondRead)) && rep.last() == Some(&(Register::RCX, ReadCondWrite)),
        "{:?}",
        rep
    );
    // cpuid reads EAX and ECX, and writes four registers
    assert_eq!(used(b"\x0F\xA2").iter().filter(|(_, access)| access.writes()).count(), 4);
    assert!(used(b"\x90").is_empty());
}

#[test]
fn memory_is_that_of_the_manual() {
    let mut factory = InstructionInfoFactory::new();
    // movsb: [RSI] through DS is read, [RDI] through ES is written
    let memory: Vec<_> = factory
        .info(&decode(b"\xA4"))
        .used_memory()
        .iter()
        .map(|used| (used.segment(), used.base(), used.memory_size(), used.access()))
        .collect();
    assert!(memory.contains(&(Register::DS, Register::RSI, 1, OpAccess::Read)), "{:?}", memory);
    assert!(memory.contains(&(Register::ES, Register::RDI, 1, OpAccess::Write)), "{:?}", memory);
    // lea reads no memory
    assert!(factory.info(&decode(b"\x48\x8D\x04\x0B")).used_memory().is_empty());
    // add [rax+rcx*8-4], edx
    let add = factory.info(&decode(b"\x01\x54\xC8\xFC")).used_memory()[0];
    assert_eq!(
        (add.base(), add.index(), add.scale(), add.displacement()),
        (Register::RAX, Register::RCX, 8, -4_i64 as u64)
    );
    assert_eq!((add.memory_size(), add.access()), (4, OpAccess::ReadWrite));
}

/// The flags of SDM volume 1, appendix A.
#[test]
fn flags_are_those_of_the_manual() {
    let add = decode(b"\x01\xC8");
    assert_eq!((add.rflags_written(), add.rflags_read(), add.rflags_modified()), (STATUS, 0, STATUS));
    let adc = decode(b"\x11\xC8");
    assert_eq!(adc.rflags_read(), RflagsBits::CF);
    // AND clears OF and CF and leaves AF undefined
    let and = decode(b"\x21\xC8");
    assert_eq!((and.rflags_cleared(), and.rflags_undefined()), (RflagsBits::OF | RflagsBits::CF, RflagsBits::AF));
    assert_eq!(and.rflags_written(), RflagsBits::SF | RflagsBits::ZF | RflagsBits::PF);
    let stc = decode(b"\xF9");
    assert_eq!((stc.rflags_set(), stc.rflags_written(), stc.rflags_modified()), (RflagsBits::CF, 0, RflagsBits::CF));
    // JBE tests CF and ZF; INC keeps CF; MOV changes none
    assert_eq!(decode(b"\x76\x00").rflags_read(), RflagsBits::CF | RflagsBits::ZF);
    assert_eq!(decode(b"\xFF\xC0").rflags_modified(), STATUS & !RflagsBits::CF);
    assert_eq!(decode(b"\x89\xC8").rflags_modified(), 0);
    // a shift by a count of 0 keeps the flags
    let mut factory = InstructionInfoFactory::new();
    assert_ne!(factory.info(&decode(b"\xD3\xE2")).rflags_kept(), 0);
}

#[test]
fn features_are_those_of_the_manual() {
    let needs = |code: &[u8]| decode(code).cpuid_features();
    assert!(needs(b"\x89\xC8").is_empty());
    assert!(needs(b"\xC5\xEC\x58\x08").iter().eq([CpuidFeature::AVX]));
    // vbroadcastss from a register needs AVX2, from memory AVX
    assert!(needs(b"\xC4\xE2\x7D\x18\xC1").iter().eq([CpuidFeature::AVX2]));
    assert!(needs(b"\xC4\xE2\x7D\x18\x01").iter().eq([CpuidFeature::AVX]));
    // vaesenc needs AES and AVX
    let both = needs(b"\xC4\xE2\x71\xDC\xC2");
    assert!(both.contains(CpuidFeature::AES) && both.contains(CpuidFeature::AVX));
    assert_eq!(needs(b"\xF3\x0F\xB8\xC1").union(both).to_string(), "POPCNT AES AVX");
    assert_eq!(CpuidFeature::SSE42.to_string(), "SSE42");
}

#[test]
fn flow_is_that_of_the_manual() {
    let table: &[(&[u8], FlowControl)] = &[
        (b"\x90", FlowControl::Next),
        (b"\xEB\x00", FlowControl::UnconditionalBranch),
        (b"\xFF\xE0", FlowControl::IndirectBranch),
        (b"\x74\x00", FlowControl::ConditionalBranch),
        (b"\xE2\x00", FlowControl::ConditionalBranch),
        (b"\xC3", FlowControl::Return),
        (b"\x48\xCF", FlowControl::Return),
        (b"\xE8\x00\x00\x00\x00", FlowControl::Call),
        (b"\x0F\x05", FlowControl::Call),
        (b"\xFF\xD0", FlowControl::IndirectCall),
        (b"\xCC", FlowControl::Interrupt),
        (b"\xCD\x80", FlowControl::Interrupt),
        (b"\x0F\x0B", FlowControl::Exception),
    ];
    for (code, flow) in table {
        assert_eq!(decode(code).flow_control(), *flow, "{}", decode(code));
    }
}

#[test]
fn operands_are_accessed_as_in_the_manual() {
    let mut factory = InstructionInfoFactory::new();
    let info = factory.info(&decode(b"\x48\x01\xC8")).clone();
    assert_eq!((info.op0_access(), info.op1_access()), (OpAccess::ReadWrite, OpAccess::Read));
    assert_eq!(
        (info.op2_access(), info.op3_access(), info.op_access(u32::MAX)),
        (OpAccess::None, OpAccess::None, OpAccess::None)
    );
    assert_eq!(factory.info(&decode(b"\x48\x39\xC8")).op0_access(), OpAccess::Read);
    assert_eq!(factory.info(&decode(b"\x48\x89\xC8")).op0_access(), OpAccess::Write);
    assert_eq!(factory.try_info(&feddurzai::Instruction::default()).err(), Some(Error::BadForm));
    assert!(factory.info(&feddurzai::Instruction::default()).used_registers().is_empty());
}

/// Registers that overlap (SDM volume 1, 3.4.1 and 14.1.1).
#[test]
fn registers_have_names_and_sizes() {
    let table = [
        (Register::AH, "ah", 1, Register::RAX),
        (Register::R8L, "r8b", 1, Register::R8),
        (Register::SIL, "sil", 1, Register::RSI),
        (Register::R15W, "r15w", 2, Register::R15),
        (Register::EBP, "ebp", 4, Register::RBP),
        (Register::RIP, "rip", 8, Register::RIP),
        (Register::EIP, "eip", 4, Register::RIP),
        (Register::XMM3, "xmm3", 16, Register::YMM3),
        (Register::YMM15, "ymm15", 32, Register::YMM15),
        (Register::ST7, "st7", 10, Register::ST7),
        (Register::MM0, "mm0", 8, Register::MM0),
        (Register::GS, "gs", 2, Register::GS),
        (Register::CR8, "cr8", 8, Register::CR8),
        (Register::DR7, "dr7", 8, Register::DR7),
    ];
    for (register, name, size, full) in table {
        assert_eq!((register.to_string().as_str(), register.size(), register.full_register()), (name, size, full));
        assert_eq!(Register::from_name(name), Some(register));
    }
    // each register has a name of its own, which reads back
    let names: std::collections::HashSet<String> = Register::values().map(|one| one.to_string()).collect();
    assert_eq!(names.len(), Register::values().count());
    for register in Register::values() {
        assert_eq!(Register::from_name(&register.to_string()), Some(register));
        assert_eq!(Register::new(register.class(), register.number() as u8), Some(register));
    }
    for name in ["", "RAX", "r8l", "r16", "st", "st8", "xmm16", "none"] {
        assert_eq!(Register::from_name(name), None, "{}", name);
    }
    assert_eq!((Register::None.size(), Register::None.to_string().as_str()), (0, "none"));
    assert_eq!((format!("{:?}", Register::None), Register::None.full_register()), ("None".to_string(), Register::None));
    assert_eq!(Register::new(RegisterClass::High8, 4), None);
    assert_eq!(Register::new(RegisterClass::Rip, 1), None);
}

/// The names of the crate are those of the library's table.
#[test]
fn codes_are_those_of_the_table() {
    for code in Code::values() {
        assert_eq!(code.op_code().name().as_deref(), Ok(code.mnemonic().as_str()), "{:?}", code);
        let name = format!("{:?}", code).to_lowercase();
        let front: String = code.mnemonic().as_str().trim_end_matches('f').chars().take(3).collect();
        assert!(name.trim_start_matches("vex_").starts_with(&front), "{}", name);
    }
    let names: std::collections::HashSet<String> = Code::values().map(|code| format!("{:?}", code)).collect();
    assert_eq!(names.len(), Code::values().count());
    let mnemonics: std::collections::HashSet<Mnemonic> = Code::values().map(Code::mnemonic).collect();
    assert_eq!(Mnemonic::values().count(), mnemonics.len());
    for mnemonic in Mnemonic::values() {
        assert_eq!(Mnemonic::from_name(mnemonic.as_str()), Some(mnemonic));
        assert_eq!(format!("{:?}", mnemonic).to_lowercase(), mnemonic.to_string());
    }
    assert_eq!(Code::INVALID.op_code().instruction(), Err(Error::BadCode));
    assert_eq!((Code::INVALID.op_code().op_count(), Code::INVALID.mnemonic()), (0, Mnemonic::INVALID));
    assert_eq!(Code::Addps_xmm_xmmm128.op_code().op_kind(4), Err(Error::NoName));
    assert_eq!(Code::Addps_xmm_xmmm128.op_code().op_kind(2).as_deref(), Ok(""));
    assert_eq!(Code::find("mov", "REX.W + 8B /r"), Some(Code::Mov_r64_rm64));
    assert_eq!((Code::find("mow", "90"), Code::find("mov", "90"), Code::of_mnemonic("").count()), (None, None, 0));
    // rows of the manual
    let table = [
        (Code::Xchg_rm64_r64, "REX.W + 87 /r", 2),
        (Code::Jmp_rel8_64, "o64 EB cb", 1),
        (Code::Retnq, "o64 C3", 0),
        (Code::VEX_Vcmpps_xmm_xmm_xmmm128_imm8, "VEX.128.0F.WIG C2 /r ib", 4),
    ];
    for (code, notation, count) in table {
        assert_eq!(code.op_code().instruction().as_deref(), Ok(notation));
        assert_eq!(code.op_code().op_count(), count);
    }
}

#[test]
fn control_is_followed() {
    // je 4; nop; nop; ret, and 06 that nothing reaches
    let code = b"\x74\x02\x90\x90\xC3\x06";
    assert_eq!(basic_blocks(64, 0x1000, code).unwrap(), [(0, 0), (2, 2), (3, 2), (4, 4)]);
    let graph = flow_graph(64, 0x1000, code, &[0]).unwrap();
    assert!(graph.leaders().eq([0, 2, 4]));
    assert_eq!(graph.reached()[3].kind, ReachedKind::Instruction(FlowControl::Return));
    let more = flow_graph(64, 0x1000, code, &[5, 0, 99]).unwrap();
    assert_eq!(more.reached()[4].kind, ReachedKind::Invalid);
    assert_eq!(flow_graph(64, 0, b"\x48", &[0]).unwrap().reached()[0].kind, ReachedKind::TooShort);
    assert!(flow_graph(64, 0, b"", &[0]).unwrap().reached().is_empty());
    assert_eq!(flow_graph(65, 0, code, &[0]), Err(Error::BadMode));
    assert_eq!(basic_blocks(0, 0, code), Err(Error::BadMode));
    assert_eq!(basic_blocks(64, 0, &vec![0x90; (1 << 20) + 1]), Err(Error::TooLarge));
    assert_eq!(flow_graph(64, 0, &vec![0x90; (1 << 24) + 1], &[]), Err(Error::TooLarge));
}
