//! Writes symbols instead of the addresses that they name: a `FormatterOutput` receives each number with its value.

use feddurzai::{Decoder, DecoderOptions, Formatter, FormatterOutput, FormatterTextKind, Instruction, NasmFormatter};
use std::collections::HashMap;

/// Writes the symbol of an address, where there is one.
struct SymbolOutput<'a> {
    symbols: &'a HashMap<u64, String>,
    text: String,
}

impl FormatterOutput for SymbolOutput<'_> {
    fn write(&mut self, text: &str, _kind: FormatterTextKind) {
        self.text.push_str(text);
    }

    fn write_number(&mut self, _instruction: &Instruction, text: &str, value: u64, kind: FormatterTextKind) {
        let is_address = matches!(
            kind,
            FormatterTextKind::LabelAddress | FormatterTextKind::FunctionAddress | FormatterTextKind::Data
        );
        match self.symbols.get(&value) {
            Some(symbol) if is_address => self.write(symbol, kind),
            _ => self.write(text, kind),
        }
    }
}

/// The texts of three instructions with their symbols.
pub fn with_symbols() -> Vec<String> {
    let symbols: HashMap<u64, String> = [(0x5AA5_5AA5, "my_data"), (0x2000, "main"), (0x100F, "done")]
        .iter()
        .map(|&(at, name)| (at, name.to_string()))
        .collect();
    // mov rcx, [rel 0x5AA55AA5]; call 0x2000; jmp 0x100F
    let code = b"\x48\x8B\x0D\x9E\x4A\xA5\x5A\xE8\xF4\x0F\x00\x00\xEB\x01\x90\xC3";
    let mut formatter = NasmFormatter::new();
    Decoder::with_ip(64, code, 0x1000, DecoderOptions::NONE)
        .into_iter()
        .map(|instruction| {
            let mut output = SymbolOutput { symbols: &symbols, text: String::new() };
            formatter.format(&instruction, &mut output);
            output.text
        })
        .collect()
}

#[allow(dead_code)]
fn main() {
    for text in with_symbols() {
        println!("{}", text);
    }
}
