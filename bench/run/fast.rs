// A plain safe Rust interpreter written for speed alone, to measure `ddc run` beside: memory as rows of pages in one vector each, and one
// match that decodes and carries out. It keeps no instruction decoded, has no `unsafe`, and prints the same text.
#![forbid(unsafe_code)]
mod machine {
    pub const PAGE: u64 = 4096;

    pub enum Cause {
        Illegal(u32),
        FetchUnmapped(u64),
        FetchMisaligned(u64),
        LoadUnmapped(u64),
        StoreUnmapped(u64),
        Break,
    }

    pub enum StepEnd {
        Spent,
        Call,
        Trap(Cause),
    }

    // Pages in a row.
    #[derive(Default)]
    pub struct Run {
        base: u64,
        bytes: Vec<u8>,
    }

    impl Run {
        fn end(&self) -> u64 {
            self.base + self.bytes.len() as u64
        }
        fn offset(&self, at: u64, count: u64) -> Option<usize> {
            let offset = at.checked_sub(self.base)?;
            (offset.checked_add(count)? <= self.bytes.len() as u64).then_some(offset as usize)
        }
    }

    // The run of the entry, that of the stack, and the others. No two runs touch.
    pub struct Ram {
        low: Run,
        stack: Run,
        others: Vec<Run>,
    }

    impl Ram {
        pub fn new() -> Ram {
            Ram { low: Run::default(), stack: Run::default(), others: Vec::new() }
        }

        fn runs(&self) -> impl Iterator<Item = &Run> {
            [&self.low, &self.stack].into_iter().chain(self.others.iter())
        }

        pub fn settle(&mut self, entry: u64) {
            let at = self.others.iter().position(|run| run.offset(entry, 1).is_some()).expect("the entry");
            self.low = self.others.remove(at);
            let at = self.others.iter().position(|run| run.end() == 1 << 38).expect("the stack");
            self.stack = self.others.remove(at);
        }

        pub fn map_zero(&mut self, first: u64, count: u64) {
            if count == 0 {
                return;
            }
            let size = (count * PAGE) as usize;
            if self.low.end() == first && !self.low.bytes.is_empty() {
                let len = self.low.bytes.len();
                self.low.bytes.resize(len + size, 0);
            } else if let Some(at) = self.others.iter().position(|run| run.end() == first) {
                let len = self.others[at].bytes.len();
                self.others[at].bytes.resize(len + size, 0);
            } else {
                self.others.push(Run { base: first, bytes: vec![0; size] });
            }
            self.others.sort_by_key(|run| run.base);
            let mut index = 1;
            while index < self.others.len() {
                if self.others[index - 1].end() == self.others[index].base {
                    let next = self.others.remove(index);
                    self.others[index - 1].bytes.extend_from_slice(&next.bytes);
                } else {
                    index += 1;
                }
            }
        }

        pub fn unmap(&mut self, first: u64, count: u64) {
            let size = (count * PAGE) as usize;
            for run in [&mut self.low].into_iter().chain(self.others.iter_mut()) {
                if size > 0 && run.end() == first + size as u64 {
                    let len = run.bytes.len() - size;
                    run.bytes.truncate(len);
                }
            }
        }

        pub fn bytes(&self, at: u64, count: u64) -> Option<&[u8]> {
            if count == 0 {
                return Some(&[]);
            }
            self.runs().find_map(|run| run.offset(at, count).map(|from| &run.bytes[from..from + count as usize]))
        }

        pub fn bytes_mut(&mut self, at: u64, count: u64) -> Option<&mut [u8]> {
            if count == 0 {
                return Some(&mut []);
            }
            let runs = [&mut self.low, &mut self.stack].into_iter().chain(self.others.iter_mut());
            runs.into_iter().find_map(|run| run.offset(at, count).map(|from| &mut run.bytes[from..from + count as usize]))
        }

        pub fn load(&self, at: u64, count: usize) -> Option<u64> {
            let mut value = [0; 8];
            value[..count].copy_from_slice(self.bytes(at, count as u64)?);
            Some(u64::from_le_bytes(value))
        }

        pub fn store(&mut self, at: u64, count: usize, value: u64) -> Option<()> {
            self.bytes_mut(at, count as u64)?.copy_from_slice(&value.to_le_bytes()[..count]);
            Some(())
        }
    }

    // The memory as the loop sees it: its two windows in registers.
    struct View<'a> {
        low_base: u64,
        low: &'a mut [u8],
        stack_base: u64,
        stack: &'a mut [u8],
        others: &'a mut [Run],
    }

    #[cold]
    #[inline(never)]
    fn far<const N: usize>(others: &[Run], at: u64) -> Option<[u8; N]> {
        others.iter().find_map(|run| run.bytes[run.offset(at, N as u64)?..].first_chunk::<N>().copied())
    }

    #[cold]
    #[inline(never)]
    fn far_store<const N: usize>(others: &mut [Run], at: u64, value: [u8; N]) -> Option<()> {
        for run in others {
            if let Some(from) = run.offset(at, N as u64) {
                run.bytes[from..from + N].copy_from_slice(&value);
                return Some(());
            }
        }
        None
    }

    #[cold]
    #[inline(never)]
    fn anywhere<const N: usize>(low_base: u64, low: &[u8], stack_base: u64, stack: &[u8], others: &[Run], at: u64) -> Option<[u8; N]> {
        let from = at.wrapping_sub(low_base) as usize;
        if let Some(part) = low.get(from..).and_then(|rest| rest.first_chunk::<N>()) {
            return Some(*part);
        }
        let from = at.wrapping_sub(stack_base) as usize;
        if let Some(part) = stack.get(from..).and_then(|rest| rest.first_chunk::<N>()) {
            return Some(*part);
        }
        far::<N>(others, at)
    }

    impl View<'_> {
        #[inline(always)]
        fn get<const N: usize>(&self, at: u64) -> Option<[u8; N]> {
            let from = at.wrapping_sub(self.low_base) as usize;
            if let Some(part) = self.low.get(from..from.wrapping_add(N)).and_then(|part| part.first_chunk::<N>()) {
                return Some(*part);
            }
            let from = at.wrapping_sub(self.stack_base) as usize;
            if let Some(part) = self.stack.get(from..from.wrapping_add(N)).and_then(|part| part.first_chunk::<N>()) {
                return Some(*part);
            }
            far::<N>(self.others, at)
        }

        #[inline(always)]
        fn put<const N: usize>(&mut self, at: u64, value: [u8; N]) -> Option<()> {
            let from = at.wrapping_sub(self.low_base) as usize;
            if let Some(part) = self.low.get_mut(from..from.wrapping_add(N)).and_then(|part| part.first_chunk_mut::<N>()) {
                *part = value;
                return Some(());
            }
            let from = at.wrapping_sub(self.stack_base) as usize;
            if let Some(part) = self.stack.get_mut(from..from.wrapping_add(N)).and_then(|part| part.first_chunk_mut::<N>()) {
                *part = value;
                return Some(());
            }
            far_store::<N>(self.others, at, value)
        }
    }

    pub struct Hart {
        pub x: [u64; 32],
        pub pc: u64,
        pub ram: Ram,
    }

    fn wide(n: u32) -> u64 {
        n as i32 as i64 as u64
    }

    impl Hart {
        // Steps until one does not go on, at most so many; with the number of those that were done.
        pub fn burst(&mut self, most: u64) -> (StepEnd, u64) {
            let Ram { low, stack, others } = &mut self.ram;
            let mut ram =
                View { low_base: low.base, low: &mut low.bytes, stack_base: stack.base, stack: &mut stack.bytes, others };
            let x = &mut self.x;
            let mut pc = self.pc;
            let mut left = most;
            let end = loop {
                if left == 0 {
                    break StepEnd::Spent;
                }
                // The pc is a multiple of 4, and so is each base.
                let from = pc.wrapping_sub(ram.low_base) as usize;
                let word = match ram.low.as_chunks::<4>().0.get(from / 4) {
                    Some(word) => *word,
                    None => match anywhere::<4>(ram.low_base, ram.low, ram.stack_base, ram.stack, ram.others, pc) {
                        Some(word) => word,
                        None => break StepEnd::Trap(Cause::FetchUnmapped(pc)),
                    },
                };
                let word = u32::from_le_bytes(word);
                macro_rules! illegal { () => { break StepEnd::Trap(Cause::Illegal(word)) }; }
                let rd = (word >> 7 & 31) as usize;
                let signed = word as i32;
                macro_rules! a { () => { x[(word >> 15 & 31) as usize] }; }
                macro_rules! b { () => { x[(word >> 20 & 31) as usize] }; }
                macro_rules! i { () => { (signed >> 20) as i64 as u64 }; }
                macro_rules! u { () => { (signed & !0xfff) as i64 as u64 }; }
                macro_rules! put { ($value:expr) => {{ let value = $value; x[rd] = value; x[0] = 0; }}; }
                macro_rules! funct7 { () => { word >> 25 }; }
                macro_rules! branch {
                    ($test:expr) => {{
                        if $test {
                            let to = (signed >> 31 << 12) | ((word << 4 & 0x800) | (word >> 20 & 0x7e0) | (word >> 7 & 0x1e)) as i32;
                            let target = pc.wrapping_add(to as i64 as u64);
                            if target % 4 != 0 {
                                break StepEnd::Trap(Cause::FetchMisaligned(target));
                            }
                            pc = target;
                            left -= 1;
                            continue;
                        }
                    }};
                }
                macro_rules! load {
                    ($n:literal, $as:expr) => {{
                        let at = a!().wrapping_add(i!());
                        let Some(part) = ram.get::<$n>(at) else { break StepEnd::Trap(Cause::LoadUnmapped(at)) };
                        put!($as(part))
                    }};
                }
                macro_rules! store {
                    ($n:literal, $type:ty) => {{
                        let at = a!().wrapping_add(((signed >> 25 << 5) | (word >> 7 & 31) as i32) as i64 as u64);
                        let value = b!() as $type;
                        if ram.put::<$n>(at, value.to_le_bytes()).is_none() {
                            break StepEnd::Trap(Cause::StoreUnmapped(at));
                        }
                    }};
                }
                // Opcode without its two low bits, and funct3 above it.
                match word & 0x7f {
                    0x03 => match word >> 12 & 7 {
                        0 => load!(1, |p| i8::from_le_bytes(p) as u64),
                        1 => load!(2, |p| i16::from_le_bytes(p) as u64),
                        2 => load!(4, |p| i32::from_le_bytes(p) as u64),
                        3 => load!(8, |p| u64::from_le_bytes(p)),
                        4 => load!(1, |p| u8::from_le_bytes(p) as u64),
                        5 => load!(2, |p| u16::from_le_bytes(p) as u64),
                        6 => load!(4, |p| u32::from_le_bytes(p) as u64),
                        _ => illegal!(),
                    },
                    0x0f => match word >> 12 & 7 {
                        0 => {}
                        _ => illegal!(),
                    },
                    0x13 => match word >> 12 & 7 {
                        0 => put!(a!().wrapping_add(i!())),
                        1 => if word >> 26 == 0 { put!(a!() << (word >> 20 & 63)) } else { illegal!() },
                        2 => put!(u64::from((a!() as i64) < i!() as i64)),
                        3 => put!(u64::from(a!() < i!())),
                        4 => put!(a!() ^ i!()),
                        5 => match word >> 26 {
                        0 => put!(a!() >> (word >> 20 & 63)),
                        16 => put!((a!() as i64 >> (word >> 20 & 63)) as u64),
                        _ => illegal!(),
                    },
                        6 => put!(a!() | i!()),
                        7 => put!(a!() & i!()),
                        _ => illegal!(),
                    },
                    0x17 => put!(pc.wrapping_add(u!())),
                    0x1b => match word >> 12 & 7 {
                        0 => put!(wide((a!() as u32).wrapping_add(i!() as u32))),
                        1 => if funct7!() == 0 { put!(wide((a!() as u32) << (word >> 20 & 31))) } else { illegal!() },
                        5 => match funct7!() {
                        0 => put!(wide(a!() as u32 >> (word >> 20 & 31))),
                        32 => put!(wide((a!() as i32 >> (word >> 20 & 31)) as u32)),
                        _ => illegal!(),
                    },
                        _ => illegal!(),
                    },
                    0x23 => match word >> 12 & 7 {
                        0 => store!(1, u8),
                        1 => store!(2, u16),
                        2 => store!(4, u32),
                        3 => store!(8, u64),
                        _ => illegal!(),
                    },
                    0x33 => match word >> 12 & 7 {
                        0 => match funct7!() {
                        0 => put!(a!().wrapping_add(b!())),
                        32 => put!(a!().wrapping_sub(b!())),
                        1 => put!(a!().wrapping_mul(b!())),
                        _ => illegal!(),
                    },
                        1 => match funct7!() {
                        0 => put!(a!() << (b!() & 63)),
                        1 => put!(((i128::from(a!() as i64) * i128::from(b!() as i64)) >> 64) as u64),
                        _ => illegal!(),
                    },
                        2 => match funct7!() {
                        0 => put!(u64::from((a!() as i64) < b!() as i64)),
                        1 => put!(((i128::from(a!() as i64) * b!() as i128) >> 64) as u64),
                        _ => illegal!(),
                    },
                        3 => match funct7!() {
                        0 => put!(u64::from(a!() < b!())),
                        1 => put!(((u128::from(a!()) * u128::from(b!())) >> 64) as u64),
                        _ => illegal!(),
                    },
                        4 => match funct7!() {
                        0 => put!(a!() ^ b!()),
                        1 => put!(if b!() == 0 { u64::MAX } else { (a!() as i64).wrapping_div(b!() as i64) as u64 }),
                        _ => illegal!(),
                    },
                        5 => match funct7!() {
                        0 => put!(a!() >> (b!() & 63)),
                        32 => put!((a!() as i64 >> (b!() & 63)) as u64),
                        1 => put!(a!().checked_div(b!()).unwrap_or(u64::MAX)),
                        _ => illegal!(),
                    },
                        6 => match funct7!() {
                        0 => put!(a!() | b!()),
                        1 => put!(if b!() == 0 { a!() } else { (a!() as i64).wrapping_rem(b!() as i64) as u64 }),
                        _ => illegal!(),
                    },
                        7 => match funct7!() {
                        0 => put!(a!() & b!()),
                        1 => put!(a!().checked_rem(b!()).unwrap_or(a!())),
                        _ => illegal!(),
                    },
                        _ => illegal!(),
                    },
                    0x37 => put!(u!()),
                    0x3b => match word >> 12 & 7 {
                        0 => match funct7!() {
                        0 => put!(wide((a!() as u32).wrapping_add(b!() as u32))),
                        32 => put!(wide((a!() as u32).wrapping_sub(b!() as u32))),
                        1 => put!(wide((a!() as u32).wrapping_mul(b!() as u32))),
                        _ => illegal!(),
                    },
                        1 => if funct7!() == 0 { put!(wide((a!() as u32) << (b!() & 31))) } else { illegal!() },
                        4 => if funct7!() == 1 {
                        put!(if b!() as u32 == 0 { u64::MAX } else { wide((a!() as i32).wrapping_div(b!() as i32) as u32) })
                    } else { illegal!() },
                        5 => match funct7!() {
                        0 => put!(wide(a!() as u32 >> (b!() & 31))),
                        32 => put!(wide((a!() as i32 >> (b!() & 31)) as u32)),
                        1 => put!(wide((a!() as u32).checked_div(b!() as u32).unwrap_or(u32::MAX))),
                        _ => illegal!(),
                    },
                        6 => if funct7!() == 1 {
                        put!(if b!() as u32 == 0 { wide(a!() as u32) } else { wide((a!() as i32).wrapping_rem(b!() as i32) as u32) })
                    } else { illegal!() },
                        7 => if funct7!() == 1 {
                        put!(wide((a!() as u32).checked_rem(b!() as u32).unwrap_or(a!() as u32)))
                    } else { illegal!() },
                        _ => illegal!(),
                    },
                    0x63 => match word >> 12 & 7 {
                        0 => branch!(a!() == b!()),
                        1 => branch!(a!() != b!()),
                        4 => branch!((a!() as i64) < b!() as i64),
                        5 => branch!(a!() as i64 >= b!() as i64),
                        6 => branch!(a!() < b!()),
                        7 => branch!(a!() >= b!()),
                        _ => illegal!(),
                    },
                    0x67 => match word >> 12 & 7 {
                        0 => {
                        let target = a!().wrapping_add(i!()) & !1;
                        if target % 4 != 0 {
                            break StepEnd::Trap(Cause::FetchMisaligned(target));
                        }
                        put!(pc.wrapping_add(4));
                        pc = target;
                        left -= 1;
                        continue;
                    }
                        _ => illegal!(),
                    },
                    0x6f => {
                        let to = (signed >> 31 << 20) | ((word & 0xff000) | (word >> 9 & 0x800) | (word >> 20 & 0x7fe)) as i32;
                        let target = pc.wrapping_add(to as i64 as u64);
                        if target % 4 != 0 {
                            break StepEnd::Trap(Cause::FetchMisaligned(target));
                        }
                        put!(pc.wrapping_add(4));
                        pc = target;
                        left -= 1;
                        continue;
                    }
                    0x73 => match word >> 12 & 7 {
                        0 => match word {
                        0x73 => break StepEnd::Call,
                        0x100073 => break StepEnd::Trap(Cause::Break),
                        _ => illegal!(),
                    },
                        _ => illegal!(),
                    },
                    _ => illegal!(),
                }
                pc = pc.wrapping_add(4);
                left -= 1;
            };
            self.pc = pc;
            (end, most - left)
        }
    }
}
mod files;
mod sha256;

use files::{call, CallEnd, Files, Heap};
use machine::{Cause, Hart, Ram, StepEnd, PAGE};
use std::env;
use std::fmt::Write;
use std::fs;
use std::os::unix::ffi::OsStringExt;

const STACK_END: u64 = 1 << 38;
const STACK_PAGES: u64 = 2_048;
const HEAP: u64 = 536_870_912;

enum RunEnd {
    Exited(u8),
    Trapped(Cause),
    UnknownCall(u64),
    Spent,
}

struct Guest {
    hart: Hart,
    files: Files,
    heap: Heap,
    steps: u64,
}

struct Segment {
    offset: u64,
    at: u64,
    in_file: u64,
    in_memory: u64,
}

fn number(bytes: &[u8], at: u64, count: usize) -> u64 {
    let mut value = [0; 8];
    value[..count].copy_from_slice(&bytes[at as usize..at as usize + count]);
    u64::from_le_bytes(value)
}

// The entry and the segments, or the number of the first refusal (docs/reference/loader.md).
fn read_image(file: &[u8]) -> Result<(u64, Vec<Segment>), u8> {
    let length = file.len() as u64;
    let refuse = |fits: bool, number: u8| if fits { Err(number) } else { Ok(()) };
    refuse(length < 64, 1)?;
    refuse(!file.starts_with(b"\x7fELF"), 2)?;
    refuse(file[4] != 2 || file[5] != 1, 3)?;
    refuse(number(file, 18, 2) != 243, 4)?;
    refuse(number(file, 16, 2) != 2, 5)?;
    let (entry, headers, count) = (number(file, 24, 8), number(file, 32, 8), number(file, 56, 2));
    refuse(number(file, 54, 2) != 56 || headers.checked_add(56 * count).is_none_or(|end| end > length), 6)?;
    let headers = || (0..count).map(|index| headers + 56 * index);
    refuse(headers().any(|at| number(file, at, 4) == 3), 7)?;
    let segments: Vec<Segment> = headers()
        .filter(|&at| number(file, at, 4) == 1 && number(file, at + 40, 8) != 0)
        .map(|at| Segment {
            offset: number(file, at + 8, 8),
            at: number(file, at + 16, 8),
            in_file: number(file, at + 32, 8),
            in_memory: number(file, at + 40, 8),
        })
        .collect();
    refuse(segments.is_empty(), 8)?;
    refuse(segments.len() > 16, 9)?;
    let mut size = 0;
    for segment in &segments {
        let is_low = segment.at.checked_add(segment.in_memory).is_some_and(|end| end <= 1 << 37);
        let is_held = segment.offset.checked_add(segment.in_file).is_some_and(|end| end <= length);
        refuse(!is_low || !is_held || segment.in_file > segment.in_memory, 10)?;
        let (first, end) = pages_of(segment);
        size += (end - first) * PAGE;
    }
    refuse(size > 268_435_456, 10)?;
    let mut pages: Vec<(u64, u64)> = segments.iter().map(pages_of).collect();
    pages.sort();
    refuse(pages.windows(2).any(|pair| pair[0].1 > pair[1].0), 11)?;
    let is_inside = segments.iter().any(|segment| (segment.at..segment.at + segment.in_memory).contains(&entry));
    refuse(entry % 4 != 0 || !is_inside, 12)?;
    Ok((entry, segments))
}

// The numbers of the first page of a segment and of the one after its last.
fn pages_of(segment: &Segment) -> (u64, u64) {
    (segment.at / PAGE, (segment.at + segment.in_memory).div_ceil(PAGE))
}

// Puts the arguments at the end of the stack, and says where the stack begins.
fn place_arguments(ram: &mut Ram, arguments: &[Vec<u8>]) -> u64 {
    let texts: u64 = arguments.iter().map(|text| text.len() as u64 + 1).sum();
    let mut text_at = STACK_END - texts;
    let mut word_at = (text_at - 8 * (5 + arguments.len() as u64)) / 16 * 16;
    let start = word_at;
    ram.store(word_at, 8, arguments.len() as u64);
    for text in arguments {
        word_at += 8;
        ram.store(word_at, 8, text_at);
        ram.bytes_mut(text_at, text.len() as u64).expect("the stack").copy_from_slice(text);
        text_at += text.len() as u64 + 1;
    }
    start
}

fn start(file: &[u8], arguments: &[Vec<u8>]) -> Result<Guest, String> {
    let (entry, segments) = read_image(file).map_err(|number| format!("elf {number}"))?;
    let size: usize = arguments.iter().map(|text| text.len() + 9).sum();
    if size + 40 > 131_072 {
        return Err("args".to_string());
    }
    let mut ram = Ram::new();
    for segment in &segments {
        let (first, end) = pages_of(segment);
        ram.map_zero(first * PAGE, end - first);
        let bytes = &file[segment.offset as usize..(segment.offset + segment.in_file) as usize];
        ram.bytes_mut(segment.at, segment.in_file).expect("mapped").copy_from_slice(bytes);
    }
    ram.map_zero(STACK_END - STACK_PAGES * PAGE, STACK_PAGES);
    ram.settle(entry);
    let mut hart = Hart { x: [0; 32], pc: entry, ram };
    hart.x[2] = place_arguments(&mut hart.ram, arguments);
    let first = segments.iter().map(|segment| pages_of(segment).1 * PAGE).max().expect("a segment");
    Ok(Guest { hart, files: Files::new(), heap: Heap { first, now: first, limit: HEAP }, steps: 0 })
}

impl Guest {
    fn run(&mut self, most: u64) -> RunEnd {
        loop {
            let (end, done) = self.hart.burst(most - self.steps);
            self.steps += done;
            match end {
                StepEnd::Spent => return RunEnd::Spent,
                StepEnd::Call => {
                    let x = &self.hart.x;
                    match call(x[17], [x[10], x[11], x[12]], &mut self.hart.ram, &mut self.files, &mut self.heap) {
                        CallEnd::Back(value) => {
                            self.hart.x[10] = value;
                            self.hart.pc = self.hart.pc.wrapping_add(4);
                        }
                        CallEnd::Exit(status) => return RunEnd::Exited(status),
                        CallEnd::Unknown(number) => return RunEnd::UnknownCall(number),
                    }
                }
                StepEnd::Trap(cause) => return RunEnd::Trapped(cause),
            }
            self.steps += 1;
        }
    }

    // The streams and the files.
    fn left(&self) -> String {
        let mut text = String::new();
        for (index, stream) in self.files.streams.iter().enumerate() {
            let _ = writeln!(text, "stream {} {} {}", index + 1, stream.len(), hex(&sha256::digest(stream)));
        }
        for (name, content) in self.files.left() {
            let _ = writeln!(text, "left {} {} {}", hex(name), content.len(), hex(&sha256::digest(content)));
        }
        text
    }
}

fn hex(bytes: &[u8]) -> String {
    bytes.iter().map(|byte| format!("{byte:02x}")).collect()
}

fn cause_text(cause: &Cause) -> String {
    match cause {
        Cause::Illegal(word) => format!("illegal {word:08x}"),
        Cause::FetchUnmapped(at) => format!("fetch-unmapped {at:016x}"),
        Cause::FetchMisaligned(at) => format!("fetch-misaligned {at:016x}"),
        Cause::LoadUnmapped(at) => format!("load-unmapped {at:016x}"),
        Cause::StoreUnmapped(at) => format!("store-unmapped {at:016x}"),
        Cause::Break => "break".to_string(),
    }
}

fn main() {
    let words: Vec<Vec<u8>> = env::args_os().skip(1).map(|word| word.into_vec()).collect();
    let program = str::from_utf8(&words[0]).expect("a file's name");
    let most = str::from_utf8(&words[1]).ok().and_then(|text| text.parse().ok()).expect("a number of steps");
    let arguments: Vec<Vec<u8>> = words.iter().enumerate().filter(|&(index, _)| index != 1).map(|(_, word)| word.clone()).collect();
    let mut guest = match start(&fs::read(program).expect("the program"), &arguments) {
        Ok(guest) => guest,
        Err(refusal) => {
            println!("failed start {refusal} step 0");
            std::process::exit(6);
        }
    };
    let end = guest.run(most);
    let step = guest.steps + 1;
    let status = match end {
        RunEnd::Exited(status) => {
            print!("exited {status} step {step}\n{}", guest.left());
            if status == 0 { 0 } else { 6 }
        }
        RunEnd::Trapped(cause) => {
            println!("failed trap {} step {step}", cause_text(&cause));
            6
        }
        RunEnd::UnknownCall(number) => {
            println!("failed call {number} step {step}");
            6
        }
        RunEnd::Spent => {
            println!("failed spent step {most}");
            6
        }
    };
    std::process::exit(status);
}
