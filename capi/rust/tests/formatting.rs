//! The formatters: texts, and parts that make up the whole text.

use feddurzai::{
    line_text, Decoder, DecoderOptions, Formatter, FormatterOutput, FormatterSyntax, FormatterTextKind, GasFormatter,
    Instruction, IntelFormatter, MasmFormatter, Register, Text,
};

fn decode(ip: u64, code: &[u8]) -> Instruction {
    Decoder::with_ip(64, code, ip, DecoderOptions::NONE).decode()
}

/// Collects parts, and the values of numbers and registers.
#[derive(Default)]
struct Parts {
    text: String,
    parts: Vec<(String, FormatterTextKind)>,
    numbers: Vec<u64>,
    registers: Vec<Register>,
}

impl FormatterOutput for Parts {
    fn write(&mut self, text: &str, kind: FormatterTextKind) {
        self.text.push_str(text);
        self.parts.push((text.to_string(), kind));
    }

    fn write_register(&mut self, _: &Instruction, text: &str, register: Register) {
        self.registers.push(register);
        self.write(text, FormatterTextKind::Register);
    }

    fn write_number(&mut self, _: &Instruction, text: &str, value: u64, kind: FormatterTextKind) {
        self.numbers.push(value);
        self.write(text, kind);
    }
}

fn formatters() -> [Box<dyn Formatter>; 3] {
    [Box::new(IntelFormatter::new()), Box::new(GasFormatter::new()), Box::new(MasmFormatter::new())]
}

/// GNU as 2.40 reads the AT&T texts as the bytes, and objdump -M intel prints the others with its own sizes and numbers.
#[test]
fn texts_in_three_styles() {
    let table: &[(&[u8], [&str; 3])] = &[
        (
            b"\x48\x89\x5C\x24\x10",
            ["mov qword [rsp+0x10], rbx", "movq %rbx, 0x10(%rsp)", "mov qword ptr [rsp+10h], rbx"],
        ),
        (b"\x83\xC0\x05", ["add eax, 0x5", "add $0x5, %eax", "add eax, 5h"]),
        (
            b"\xF0\x01\x4C\x98\xF8",
            [
                "lock add dword [rax+rbx*4-0x8], ecx",
                "lock addl %ecx, -0x8(%rax,%rbx,4)",
                "lock add dword ptr [rax+rbx*4-8h], ecx",
            ],
        ),
        (b"\xDC\xC1", ["fadd st1, st0", "fadd %st(0), %st(1)", "fadd st(1), st(0)"]),
        (b"\x74\x10", ["je 0x1012", "je 0x1012", "je 1012h"]),
        (b"\xF3\xA4", ["rep movsb", "rep movsb", "rep movsb"]),
        (b"\xFF\x25\x10\x00\x00\x00", ["jmp qword [rel 0x1016]", "jmpq *0x1016(%rip)", "jmp qword ptr [1016h]"]),
    ];
    for (code, texts) in table {
        let instruction = decode(0x1000, code);
        for (formatter, wanted) in formatters().iter_mut().zip(texts) {
            let mut text = String::new();
            formatter.format(&instruction, &mut text);
            assert_eq!(text, *wanted);
            assert_eq!(instruction.text(formatter.syntax()).as_deref(), Ok(*wanted));
            let line = line_text(64, formatter.syntax(), 0x1000, code);
            assert_eq!(line.map(|(len, text)| (len, text.to_string())), Ok((code.len(), wanted.to_string())));
        }
        assert_eq!(instruction.to_string(), texts[0]);
    }
}

/// The parts of each text make up the text, over code of every kind.
#[test]
fn parts_are_the_whole() {
    let mut seed = 7_u32;
    let mut code = Vec::new();
    for _ in 0..3000 {
        seed = seed.wrapping_mul(1_664_525).wrapping_add(1_013_904_223);
        code.push((seed >> 24) as u8);
    }
    for bitness in [16, 32, 64] {
        for instruction in Decoder::new(bitness, &code, DecoderOptions::NONE) {
            for formatter in &mut formatters() {
                let (mut whole, mut parts) = (String::new(), Parts::default());
                formatter.format(&instruction, &mut whole);
                formatter.format(&instruction, &mut parts);
                assert_eq!(parts.text, whole);
                let (mut name, mut operands) = (String::new(), String::new());
                formatter.format_mnemonic(&instruction, &mut name);
                formatter.format_all_operands(&instruction, &mut operands);
                assert_eq!(format!("{} {}", name, operands).trim_end(), whole);
                // each register and number of the operands is found
                for (text, kind) in &parts.parts {
                    let is_word = *kind == FormatterTextKind::Keyword;
                    assert!(
                        !is_word
                            || !text.contains(|c: char| c.is_ascii_digit())
                            || text.starts_with("far")
                            || text == "rel32",
                        "{} in {}",
                        text,
                        whole
                    );
                }
            }
        }
    }
}

#[test]
fn parts_have_kinds() {
    use FormatterTextKind::{
        Data, FunctionAddress, Keyword, LabelAddress, Mnemonic, Number, Operator, Prefix, Punctuation,
    };
    let parts = |ip, code: &[u8], formatter: &mut dyn Formatter| {
        let mut parts = Parts::default();
        formatter.format(&decode(ip, code), &mut parts);
        parts.parts.retain(|(text, _)| text != " ");
        parts
    };
    let add = parts(0, b"\xF0\x01\x4C\x98\xF8", &mut IntelFormatter::new());
    let kinds: Vec<_> = add.parts.iter().map(|(_, kind)| *kind).collect();
    let register = FormatterTextKind::Register;
    assert_eq!(
        kinds,
        [
            Prefix,
            Mnemonic,
            Keyword,
            Punctuation,
            register,
            Operator,
            register,
            Operator,
            Number,
            Operator,
            Number,
            Punctuation,
            Punctuation,
            register
        ]
    );
    assert_eq!((add.numbers, add.registers), (vec![4, 8], vec![Register::RAX, Register::RBX, Register::ECX]));

    let call = parts(0x1000, b"\xE8\xFB\x0F\x00\x00", &mut GasFormatter::new());
    assert_eq!(call.parts[1], ("0x2000".to_string(), FunctionAddress));
    let je = parts(0x1000, b"\x74\x10", &mut MasmFormatter::new());
    assert_eq!((je.parts[1].clone(), je.numbers), (("1012h".to_string(), LabelAddress), vec![0x1012]));
    let lea = parts(0x1000, b"\x48\x8D\x05\x78\x7C\x04\x00", &mut IntelFormatter::new());
    assert!(lea.parts.contains(&("0x48c7f".to_string(), Data)) && lea.parts.contains(&("rel".to_string(), Keyword)));
    let fadd = parts(0, b"\xDC\xC1", &mut GasFormatter::new());
    assert_eq!(fadd.registers, [Register::ST0, Register::ST1]);
    let mov = parts(0, b"\x41\xB7\x7F", &mut IntelFormatter::new());
    assert_eq!(mov.registers, [Register::R15L]);
    let far = {
        let mut parts = Parts::default();
        let jmp = Decoder::new(32, b"\xEA\x78\x56\x34\x12\x23\x00", DecoderOptions::NONE).decode();
        IntelFormatter::new().format(&jmp, &mut parts);
        parts.parts
    };
    assert_eq!(far[2], ("0x23".to_string(), FormatterTextKind::SelectorValue));
    assert_eq!(far[4], ("0x12345678".to_string(), LabelAddress));
}

/// A text that is appended equals the text by itself, whatever is in the string and however much room it has.
#[test]
fn texts_are_appended() {
    let codes: [&[u8]; 4] = [b"\xC3", b"\x48\x89\x5C\x24\x10", b"\xF0\x00\x00", b"\x06"];
    for syntax in [FormatterSyntax::Intel, FormatterSyntax::Gas, FormatterSyntax::Masm] {
        for front in ["", "401000 ", "\u{e9}\u{1F600}"] {
            let (mut string, mut wanted) = (String::from(front), String::from(front));
            string.shrink_to_fit();
            for code in codes.iter().cycle().take(40) {
                let instruction = decode(0x1000, code);
                match instruction.text(syntax) {
                    Ok(text) => {
                        wanted.push_str(&text);
                        assert_eq!(instruction.append_text(syntax, &mut string), Ok(()));
                    }
                    Err(error) => assert_eq!(instruction.append_text(syntax, &mut string), Err(error)),
                }
                assert_eq!(string, wanted);
            }
        }
    }
}

/// A text that the library ends with a 0 has its own length, shorter or longer than the one before it.
#[test]
fn texts_have_any_length() {
    // codes whose texts have different lengths
    let (mut decoder, mut instruction, mut text) =
        (Decoder::new(64, b"", DecoderOptions::NONE), Instruction::default(), Text::new());
    let mut seen = [false; 64];
    let codes: [&[u8]; 9] = [
        b"\x90",
        b"\xC3",
        b"\xCC",
        b"\x50",
        b"\x41\x50",
        b"\x01\xC8",
        b"\x48\x01\xC8",
        b"\x48\x8B\x44\x24\x10",
        b"\xF0\x64\x48\x0F\xC7\x8C\x88\x78\x56\x34\x12",
    ];
    for code in codes {
        decoder.clone_from(&Decoder::new(64, code, DecoderOptions::NONE));
        decoder.decode_line(FormatterSyntax::Masm, &mut instruction, &mut text);
        assert_eq!(text, instruction.text(FormatterSyntax::Masm).unwrap().as_str());
        assert_eq!(line_text(64, FormatterSyntax::Masm, 0, code), Ok((code.len(), text)));
        seen[text.len()] = true;
    }
    assert!(seen.iter().filter(|&&one| one).count() >= 5);
}

/// An output with a string receives the whole text there, and nothing else.
#[test]
fn an_output_may_have_a_string() {
    struct Line(String, usize);
    impl FormatterOutput for Line {
        fn write(&mut self, _: &str, _: FormatterTextKind) {
            self.1 += 1;
        }

        fn string(&mut self) -> Option<&mut String> {
            Some(&mut self.0)
        }
    }
    for formatter in &mut formatters() {
        let mut line = Line(String::from(">"), 0);
        formatter.format(&decode(0x1000, b"\xC3"), &mut line);
        formatter.format(&Instruction::default(), &mut line);
        assert_eq!((line.0.as_str(), line.1), (">ret(bad)", 0));
    }
}

#[test]
fn what_is_no_instruction_is_bad() {
    for formatter in &mut formatters() {
        let mut text = String::new();
        formatter.format(&Instruction::default(), &mut text);
        assert_eq!(text, "(bad)");
        assert_eq!(formatter.format_register(Register::None), "");
    }
    assert_eq!(GasFormatter::new().format_register(Register::R8D), "%r8d");
    let (mut decoder, mut instruction, mut text) =
        (Decoder::new(64, b"\x06\x90", DecoderOptions::NONE), Instruction::default(), Text::new());
    decoder.decode_line(FormatterSyntax::Intel, &mut instruction, &mut text);
    assert_eq!((text.as_str(), instruction.is_invalid(), decoder.position()), ("(bad)", true, 1));
    decoder.decode_line(FormatterSyntax::Intel, &mut instruction, &mut text);
    assert_eq!((text.as_str(), instruction.is_invalid(), decoder.position()), ("nop", false, 2));
    decoder.decode_line(FormatterSyntax::Gas, &mut instruction, &mut text);
    assert_eq!((text.as_str(), instruction.len(), decoder.position()), ("(bad)", 0, 2));
    assert!(
        line_text(3, FormatterSyntax::Intel, 0, b"\x90").is_err()
            && line_text(64, FormatterSyntax::Intel, 0, b"").is_err()
    );
    assert_eq!(format!("[{:>8}] [{:<5}]", decode(0, b"\x90"), Register::AL), "[     nop] [al   ]");
}
