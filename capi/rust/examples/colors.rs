//! Colours the parts of a text, by the escape sequences of a terminal.

use feddurzai::{Decoder, DecoderOptions, Formatter, FormatterOutput, FormatterTextKind, GasFormatter, IntelFormatter};

/// Collects the parts of a text with their colours.
#[derive(Default)]
pub struct ColorOutput {
    parts: Vec<(String, u8)>,
}

impl FormatterOutput for ColorOutput {
    fn write(&mut self, text: &str, kind: FormatterTextKind) {
        self.parts.push((text.to_string(), color_of(kind)));
    }
}

/// The number of a colour of the terminal.
fn color_of(kind: FormatterTextKind) -> u8 {
    match kind {
        FormatterTextKind::Prefix | FormatterTextKind::Mnemonic => 33,
        FormatterTextKind::Register => 35,
        FormatterTextKind::Keyword => 36,
        FormatterTextKind::Number => 32,
        FormatterTextKind::LabelAddress | FormatterTextKind::FunctionAddress | FormatterTextKind::Data => 34,
        _ => 37,
    }
}

impl ColorOutput {
    /// The text with escape sequences.
    pub fn colored(&self) -> String {
        self.parts.iter().map(|(text, color)| format!("\x1B[{}m{}\x1B[0m", color, text)).collect()
    }
}

/// The texts of some code in a style.
pub fn colored_lines(formatter: &mut dyn Formatter) -> Vec<String> {
    // lock add dword [rax+rbx*4-0x8], ecx; je 0x1010; fadd st0, st1
    let code = b"\xF0\x01\x4C\x98\xF8\x74\x09\xD8\xC1";
    let mut decoder = Decoder::with_ip(64, code, 0x1000, DecoderOptions::NONE);
    decoder
        .iter()
        .map(|instruction| {
            let mut output = ColorOutput::default();
            formatter.format(&instruction, &mut output);
            output.colored()
        })
        .collect()
}

#[allow(dead_code)]
fn main() {
    for line in colored_lines(&mut IntelFormatter::new()).iter().chain(&colored_lines(&mut GasFormatter::new())) {
        println!("{}", line);
    }
}
