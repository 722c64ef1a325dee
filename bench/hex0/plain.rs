// The plain program that `ddc hex0` is measured against: the same two files, the same answer.
//
// Built by `rustc -O bench/hex0/plain.rs` (bench/hex0/run does it). It reads both files whole, computes
// the value of the source in one pass into a vector that grows, and compares.

use std::env;
use std::fs;
use std::process::ExitCode;

fn digit_value(byte: u8) -> Option<u8> {
    match byte {
        b'0'..=b'9' => Some(byte - b'0'),
        b'a'..=b'f' => Some(byte - b'a' + 10),
        b'A'..=b'F' => Some(byte - b'A' + 10),
        _ => None,
    }
}

fn hex0(source: &[u8]) -> Vec<u8> {
    let mut value = Vec::new();
    let mut high = None;
    let mut in_comment = false;
    for &byte in source {
        match byte {
            b'\n' => in_comment = false,
            _ if in_comment => {}
            b'#' | b';' => in_comment = true,
            _ => {
                if let Some(digit) = digit_value(byte) {
                    match high.take() {
                        None => high = Some(digit),
                        Some(first) => value.push(16 * first + digit),
                    }
                }
            }
        }
    }
    value
}

fn main() -> ExitCode {
    let words: Vec<String> = env::args().skip(1).collect();
    let [source, binary] = words.as_slice() else {
        return ExitCode::from(2);
    };
    let (Ok(source), Ok(binary)) = (fs::read(source), fs::read(binary)) else {
        return ExitCode::from(10);
    };
    let value = hex0(&source);
    if value == binary {
        println!("equal {}", value.len());
        return ExitCode::SUCCESS;
    }
    let same = value.iter().zip(&binary).take_while(|(a, b)| a == b).count();
    println!("differs {same} {} {}", value.len(), binary.len());
    ExitCode::from(3)
}
