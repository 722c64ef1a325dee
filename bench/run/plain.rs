// What `ddc run PROGRAM STEPS ARG..` does, in plain Rust of the same shape, for the bench: it prints the same text.
#[path = "../machine.rs"]
mod machine;
mod files;
mod sha256;

use files::{CallEnd, Files, Heap, call};
use machine::{Cause, Hart, PAGE, Ram, StepEnd};
use std::env;
use std::fmt::Write;
use std::fs;
use std::os::unix::ffi::OsStringExt;

const STACK_END: u64 = 1 << 38;
const STACK_PAGES: u64 = 2_048;
const HEAP: u64 = 536_870_912;

enum RunEnd {
    Exited(u8),
    Trapped(Cause),
    UnknownCall(u64),
    Spent,
}

struct Guest {
    hart: Hart,
    files: Files,
    heap: Heap,
    steps: u64,
}

struct Segment {
    offset: u64,
    at: u64,
    in_file: u64,
    in_memory: u64,
}

fn number(bytes: &[u8], at: u64, count: usize) -> u64 {
    let mut value = [0; 8];
    value[..count].copy_from_slice(&bytes[at as usize..at as usize + count]);
    u64::from_le_bytes(value)
}

// The entry and the segments, or the number of the first refusal (docs/reference/loader.md).
fn read_image(file: &[u8]) -> Result<(u64, Vec<Segment>), u8> {
    let length = file.len() as u64;
    let refuse = |fits: bool, number: u8| if fits { Err(number) } else { Ok(()) };
    refuse(length < 64, 1)?;
    refuse(!file.starts_with(b"\x7fELF"), 2)?;
    refuse(file[4] != 2 || file[5] != 1, 3)?;
    refuse(number(file, 18, 2) != 243, 4)?;
    refuse(number(file, 16, 2) != 2, 5)?;
    let (entry, headers, count) = (number(file, 24, 8), number(file, 32, 8), number(file, 56, 2));
    refuse(number(file, 54, 2) != 56 || headers.checked_add(56 * count).is_none_or(|end| end > length), 6)?;
    let headers = || (0..count).map(|index| headers + 56 * index);
    refuse(headers().any(|at| number(file, at, 4) == 3), 7)?;
    let segments: Vec<Segment> = headers()
        .filter(|&at| number(file, at, 4) == 1 && number(file, at + 40, 8) != 0)
        .map(|at| Segment {
            offset: number(file, at + 8, 8),
            at: number(file, at + 16, 8),
            in_file: number(file, at + 32, 8),
            in_memory: number(file, at + 40, 8),
        })
        .collect();
    refuse(segments.is_empty(), 8)?;
    refuse(segments.len() > 16, 9)?;
    let mut size = 0;
    for segment in &segments {
        let is_low = segment.at.checked_add(segment.in_memory).is_some_and(|end| end <= 1 << 37);
        let is_held = segment.offset.checked_add(segment.in_file).is_some_and(|end| end <= length);
        refuse(!is_low || !is_held || segment.in_file > segment.in_memory, 10)?;
        let (first, end) = pages_of(segment);
        size += (end - first) * PAGE;
    }
    refuse(size > 268_435_456, 10)?;
    let mut pages: Vec<(u64, u64)> = segments.iter().map(pages_of).collect();
    pages.sort();
    refuse(pages.windows(2).any(|pair| pair[0].1 > pair[1].0), 11)?;
    let is_inside = segments.iter().any(|segment| (segment.at..segment.at + segment.in_memory).contains(&entry));
    refuse(entry % 4 != 0 || !is_inside, 12)?;
    Ok((entry, segments))
}

// The numbers of the first page of a segment and of the one after its last.
fn pages_of(segment: &Segment) -> (u64, u64) {
    (segment.at / PAGE, (segment.at + segment.in_memory).div_ceil(PAGE))
}

// Puts the arguments at the end of the stack, and says where the stack begins.
fn place_arguments(ram: &mut Ram, arguments: &[Vec<u8>]) -> u64 {
    let texts: u64 = arguments.iter().map(|text| text.len() as u64 + 1).sum();
    let mut text_at = STACK_END - texts;
    let mut word_at = (text_at - 8 * (5 + arguments.len() as u64)) / 16 * 16;
    let start = word_at;
    ram.store(word_at, 8, arguments.len() as u64);
    for text in arguments {
        word_at += 8;
        ram.store(word_at, 8, text_at);
        ram.bytes_mut(text_at, text.len() as u64).expect("the stack").copy_from_slice(text);
        text_at += text.len() as u64 + 1;
    }
    start
}

fn start(file: &[u8], arguments: &[Vec<u8>]) -> Result<Guest, String> {
    let (entry, segments) = read_image(file).map_err(|number| format!("elf {number}"))?;
    let size: usize = arguments.iter().map(|text| text.len() + 9).sum();
    if size + 40 > 131_072 {
        return Err("args".to_string());
    }
    let mut ram = Ram::new();
    for segment in &segments {
        let (first, end) = pages_of(segment);
        ram.map_zero(first * PAGE, end - first);
        let bytes = &file[segment.offset as usize..(segment.offset + segment.in_file) as usize];
        ram.bytes_mut(segment.at, segment.in_file).expect("mapped").copy_from_slice(bytes);
    }
    ram.map_zero(STACK_END - STACK_PAGES * PAGE, STACK_PAGES);
    let mut hart = Hart { x: [0; 32], pc: entry, ram };
    hart.x[2] = place_arguments(&mut hart.ram, arguments);
    let first = segments.iter().map(|segment| pages_of(segment).1 * PAGE).max().expect("a segment");
    Ok(Guest { hart, files: Files::new(), heap: Heap { first, now: first, limit: HEAP }, steps: 0 })
}

impl Guest {
    fn run(&mut self, most: u64) -> RunEnd {
        for _ in 0..most {
            match self.hart.step() {
                StepEnd::Done => {}
                StepEnd::Call => {
                    let x = &self.hart.x;
                    match call(x[17], [x[10], x[11], x[12]], &mut self.hart.ram, &mut self.files, &mut self.heap) {
                        CallEnd::Back(value) => self.hart.answer(value),
                        CallEnd::Exit(status) => return RunEnd::Exited(status),
                        CallEnd::Unknown(number) => return RunEnd::UnknownCall(number),
                    }
                }
                StepEnd::Trap(cause) => return RunEnd::Trapped(cause),
            }
            self.steps += 1;
        }
        RunEnd::Spent
    }

    // The streams and the files.
    fn left(&self) -> String {
        let mut text = String::new();
        for (index, stream) in self.files.streams.iter().enumerate() {
            let _ = writeln!(text, "stream {} {} {}", index + 1, stream.len(), hex(&sha256::digest(stream)));
        }
        for (name, content) in self.files.left() {
            let _ = writeln!(text, "left {} {} {}", hex(name), content.len(), hex(&sha256::digest(content)));
        }
        text
    }
}

fn hex(bytes: &[u8]) -> String {
    bytes.iter().map(|byte| format!("{byte:02x}")).collect()
}

fn cause_text(cause: &Cause) -> String {
    match cause {
        Cause::Illegal(word) => format!("illegal {word:08x}"),
        Cause::FetchUnmapped(at) => format!("fetch-unmapped {at:016x}"),
        Cause::FetchMisaligned(at) => format!("fetch-misaligned {at:016x}"),
        Cause::LoadUnmapped(at) => format!("load-unmapped {at:016x}"),
        Cause::StoreUnmapped(at) => format!("store-unmapped {at:016x}"),
        Cause::Break => "break".to_string(),
    }
}

fn main() {
    let words: Vec<Vec<u8>> = env::args_os().skip(1).map(|word| word.into_vec()).collect();
    let program = str::from_utf8(&words[0]).expect("a file's name");
    let most = str::from_utf8(&words[1]).ok().and_then(|text| text.parse().ok()).expect("a number of steps");
    let arguments: Vec<Vec<u8>> = words.iter().enumerate().filter(|&(index, _)| index != 1).map(|(_, word)| word.clone()).collect();
    let mut guest = match start(&fs::read(program).expect("the program"), &arguments) {
        Ok(guest) => guest,
        Err(refusal) => {
            println!("failed start {refusal} step 0");
            std::process::exit(6);
        }
    };
    let end = guest.run(most);
    let step = guest.steps + 1;
    let status = match end {
        RunEnd::Exited(status) => {
            print!("exited {status} step {step}\n{}", guest.left());
            if status == 0 { 0 } else { 6 }
        }
        RunEnd::Trapped(cause) => {
            println!("failed trap {} step {step}", cause_text(&cause));
            6
        }
        RunEnd::UnknownCall(number) => {
            println!("failed call {number} step {step}");
            6
        }
        RunEnd::Spent => {
            println!("failed spent step {most}");
            6
        }
    };
    std::process::exit(status);
}
