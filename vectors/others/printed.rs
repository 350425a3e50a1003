//! Prints lines as those of an answer. A driver is run as `driver CALL FILE [NAME]`. An error is the line `error`, with the reader's words on
//! stderr.
use std::fmt::{Debug, Write};

/// Lines that are printed at the end, or after the reader refuses.
#[derive(Default)]
pub struct Lines(String);

impl Lines {
    pub fn add(&mut self, line: String) {
        self.0.push_str(&line);
        self.0.push('\n');
    }
}

/// Returns a name in quotes, with escapes.
pub fn quoted(name: &[u8]) -> String {
    let mut text = String::from("\"");
    for &byte in name {
        match byte {
            b'"' | b'\\' | 0..=0x1f | 0x7f.. => write!(text, "\\x{byte:02x}").unwrap(),
            _ => text.push(byte as char),
        }
    }
    text + "\""
}

/// Returns the words of the command line: the call, the file's bytes, and a name.
pub fn arguments() -> (String, Vec<u8>, String) {
    let words: Vec<String> = std::env::args().collect();
    let name = words.get(3).cloned().unwrap_or_default();
    (words[1].clone(), std::fs::read(&words[2]).expect("a file"), name)
}

/// Prints what a call gave. A list has an end, and a single line has none.
pub fn print<E: Debug>(mut lines: Lines, answer: Result<(), E>, is_list: bool) {
    match answer {
        Ok(()) if is_list => lines.add("end".into()),
        Ok(()) => {}
        Err(error) => {
            eprintln!("{error:?}");
            lines.add("error".into());
        }
    }
    print!("{}", lines.0);
}
