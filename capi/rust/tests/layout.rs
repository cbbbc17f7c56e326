//! The structs of the crate have the layout of feddurzai.h, and the numbers are those of the header, by a C compiler.

use std::collections::BTreeMap;
use std::path::{Path, PathBuf};
use std::process::Command;
use std::{env, fs};

/// The flags with which the compiler finds the header: the clone's, else that of pkg-config.
fn include_flags() -> Option<Vec<String>> {
    let beside = Path::new(env!("CARGO_MANIFEST_DIR")).join("..");
    if beside.join("feddurzai.h").exists() {
        return Some(vec![format!("-I{}", beside.display())]);
    }
    let output = Command::new("pkg-config").args(["--cflags", "feddurzai"]).output().ok()?;
    let flags = String::from_utf8(output.stdout).ok()?;
    output.status.success().then(|| flags.split_whitespace().map(str::to_string).collect())
}

/// Compiles a program and returns the lines that it prints, each a name and a number. `None` if there is no compiler or no
/// header.
fn numbers_in_c(name: &str, lines: &str) -> Option<BTreeMap<String, u64>> {
    let compiler = env::var("CC").unwrap_or_else(|_| "cc".to_string());
    let flags = include_flags()?;
    Command::new(&compiler).arg("--version").output().ok()?;
    let folder = PathBuf::from(env!("CARGO_TARGET_TMPDIR"));
    let (source, program) = (folder.join(format!("{}.c", name)), folder.join(name));
    // the functions of the header that look for NULL call the library: they are not needed here
    let text =
        format!("#include \"feddurzai.h\"\n#include <stdio.h>\nint main(void)\n{{\n{}    return 0;\n}}\n", lines);
    fs::write(&source, text).unwrap();
    let library = folder.join(format!("{}.o", name));
    let compiled = Command::new(&compiler).args(&flags).args(["-O1", "-c", "-o"]).arg(&library).arg(&source).status();
    assert!(compiled.unwrap().success(), "{} does not compile", source.display());
    let linked = Command::new(&compiler).arg("-o").arg(&program).arg(&library).status();
    assert!(linked.unwrap().success(), "{} is not linked", source.display());
    let output = Command::new(&program).output().unwrap();
    let text = String::from_utf8(output.stdout).unwrap();
    let pairs = text.lines().map(|line| line.split_once(' ').unwrap());
    Some(pairs.map(|(name, number)| (name.to_string(), number.parse().unwrap())).collect())
}

/// A line of C that prints a name and the value of an expression.
fn prints(name: &str, expression: &str) -> String {
    format!("    printf(\"{} %lu\\n\", (unsigned long)({}));\n", name, expression)
}

#[test]
fn structs_have_the_layout_of_the_header() {
    let (mut lines, mut here) = (String::new(), BTreeMap::new());
    feddurzai::each_layout(|name, size, fields| {
        lines += &prints(name, &format!("sizeof({})", name));
        here.insert(name.to_string(), size as u64);
        for (field, offset) in fields {
            let path = format!("{}.{}", name, field);
            lines += &prints(&path, &format!("offsetof({}, {})", name, field));
            lines += &prints(&format!("{}+", path), &format!("sizeof((({} *)0)->{})", name, field));
            here.insert(path, *offset as u64);
        }
    });
    let there = match numbers_in_c("layout", &lines) {
        Some(there) => there,
        None => {
            eprintln!("skipped: there is no C compiler or no feddurzai.h");
            return;
        }
    };
    assert_eq!(there.keys().filter(|name| !name.ends_with('+')).count(), here.len());
    for (name, number) in &here {
        assert_eq!(there.get(name), Some(number), "{}", name);
    }
    // no field of the header is missing: the next one begins where the one before it ends, with its alignment
    feddurzai::each_layout(|name, size, fields| {
        let mut end = 0;
        for (field, offset) in fields {
            let len = there[&format!("{}.{}+", name, field)];
            assert!(*offset as u64 - end < 8, "{} has a field before {}", name, field);
            end = *offset as u64 + len;
        }
        assert!(size as u64 - end < 8, "{} has a field after the last one", name);
    });
}

#[test]
fn numbers_are_those_of_the_header() {
    use feddurzai::{Code, INTERFACE, MAX_INSTRUCTION_LENGTH};
    let wanted: &[(&str, u64)] = &[
        ("FEDDURZAI_INTERFACE", u64::from(INTERFACE)),
        ("FEDDURZAI_MAX_LEN", MAX_INSTRUCTION_LENGTH as u64),
        ("FEDDURZAI_CODES", Code::values().count() as u64),
        ("FEDDURZAI_CODE_MOV_R64_RM64", u64::from(Code::Mov_r64_rm64.value())),
        ("FEDDURZAI_CODE_MOV_RM64_IMM32", u64::from(Code::Mov_rm64_imm32.value())),
        ("FEDDURZAI_CODE_JMP_REL32", u64::from(Code::Jmp_rel32_64.value())),
        ("FEDDURZAI_CODE_JMP_REL32_O32", u64::from(Code::Jmp_rel32_32.value())),
        ("FEDDURZAI_CODE_JG_REL8", u64::from(Code::Jg_rel8_64.value())),
        ("FEDDURZAI_CODE_RET", u64::from(Code::Retnq.value())),
        ("FEDDURZAI_CODE_RET_IMM16", u64::from(Code::Retnq_imm16.value())),
        ("FEDDURZAI_CODE_PUSH_IMM8", u64::from(Code::Pushq_imm8.value())),
        ("FEDDURZAI_CODE_LEA_R64", u64::from(Code::Lea_r64_m.value())),
        ("FEDDURZAI_CODE_XOR_RM32_R32", u64::from(Code::Xor_rm32_r32.value())),
        ("FEDDURZAI_CODE_NOP", u64::from(Code::Nopd.value())),
        ("FEDDURZAI_CODE_LEAVE", u64::from(Code::Leaveq.value())),
        ("FEDDURZAI_FLAG_ZF", u64::from(feddurzai::RflagsBits::ZF)),
        ("FEDDURZAI_FLAG_C3", u64::from(feddurzai::RflagsBits::C3)),
        ("FEDDURZAI_FEATURES", 41),
        ("FEDDURZAI_MAX_TEXT", 161),
        ("FEDDURZAI_MAX_STEP", 53),
        ("FEDDURZAI_MAX_PATCH", 28),
    ];
    let lines: String = wanted.iter().map(|(name, _)| prints(name, name)).collect();
    match numbers_in_c("numbers", &lines) {
        Some(there) => wanted.iter().for_each(|(name, number)| assert_eq!(there.get(*name), Some(number), "{}", name)),
        None => eprintln!("skipped: there is no C compiler or no feddurzai.h"),
    }
}
