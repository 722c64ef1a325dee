// The plain program that `ddc show` is measured against: the same file, the same refusals, the same text.
//
// Built by `rustc -O bench/show/plain.rs` (bench/show/run does it). It reads the report line by line into structs, and writes it
// again from these.

use std::env;
use std::fs;
use std::io::{self, Write};
use std::process::ExitCode;

type Digest = [u8; 32];

struct Mark {
    length: u64,
    digest: Digest,
}

struct InputLine {
    name: Vec<u8>,
    mark: Mark,
}

struct LeftLine {
    name: Vec<u8>,
    mark: Mark,
}

struct Stage {
    name: Vec<u8>,
    steps: u64,
    streams: [Mark; 2],
    left: Vec<LeftLine>,
    made: Mark,
    checked: Option<Vec<u8>>,
}

enum Compared {
    Equal(u64),
    Differs(u64, u64, u64),
}

struct Report {
    recipe: Digest,
    inputs: Vec<InputLine>,
    stages: Vec<Stage>,
    compared: (Vec<u8>, Vec<u8>, Compared),
}

/// The bytes after the lines that were taken, and the number of the line that was last looked at.
struct Lines<'a> {
    rest: &'a [u8],
    taken: u64,
    number: u64,
}

impl<'a> Lines<'a> {
    /// The next line's fields after its first word, if it has this first word.
    fn fields(&mut self, kind: &[u8]) -> Option<&'a [u8]> {
        self.number = self.taken + 1;
        let end = self.rest.iter().position(|byte| *byte == b'\n')?;
        let fields = self.rest[..end].strip_prefix(kind)?.strip_prefix(b" ")?;
        self.rest = &self.rest[end + 1..];
        self.taken += 1;
        Some(fields)
    }

    /// Takes this line, if it is the next one.
    fn takes(&mut self, line: &[u8]) -> bool {
        self.number = self.taken + 1;
        let taken = self.rest.strip_prefix(line).and_then(|rest| rest.strip_prefix(b"\n"));
        if let Some(rest) = taken {
            self.rest = rest;
            self.taken += 1;
        }
        taken.is_some()
    }
}

fn cut(text: &[u8]) -> Option<(&[u8], &[u8])> {
    let at = text.iter().position(|byte| *byte == b' ')?;
    Some((&text[..at], &text[at + 1..]))
}

fn number(word: &[u8]) -> Option<u64> {
    if word.is_empty() || (word[0] == b'0' && word.len() > 1) {
        return None;
    }
    let mut value = 0u64;
    for byte in word {
        if !byte.is_ascii_digit() {
            return None;
        }
        value = value.checked_mul(10)?.checked_add(u64::from(byte - b'0'))?;
    }
    Some(value)
}

fn name(word: &[u8]) -> Option<Vec<u8>> {
    let right = |byte: &u8| byte.is_ascii_lowercase() || byte.is_ascii_digit() || *byte == b'_';
    (1..=32).contains(&word.len()).then_some(())?;
    word.iter().all(right).then(|| word.to_vec())
}

fn digit(byte: u8) -> Option<u8> {
    match byte {
        b'0'..=b'9' => Some(byte - b'0'),
        b'a'..=b'f' => Some(byte - b'a' + 10),
        _ => None,
    }
}

fn file_name(word: &[u8]) -> Option<Vec<u8>> {
    if word.is_empty() || word.len() % 2 == 1 || word.len() > 510 {
        return None;
    }
    let mut bytes = Vec::with_capacity(word.len() / 2);
    for pair in word.chunks_exact(2) {
        bytes.push(16 * digit(pair[0])? + digit(pair[1])?);
    }
    Some(bytes)
}

fn digest(word: &[u8]) -> Option<Digest> {
    if word.len() != 64 {
        return None;
    }
    let mut bytes = [0; 32];
    for (byte, pair) in bytes.iter_mut().zip(word.chunks_exact(2)) {
        *byte = 16 * digit(pair[0])? + digit(pair[1])?;
    }
    Some(bytes)
}

fn mark(text: &[u8]) -> Option<Mark> {
    let (length, content) = cut(text)?;
    Some(Mark {
        length: number(length)?,
        digest: digest(content)?,
    })
}

fn input(fields: &[u8]) -> Option<InputLine> {
    let (word, content) = cut(fields)?;
    Some(InputLine {
        name: name(word)?,
        mark: mark(content)?,
    })
}

fn left(fields: &[u8]) -> Option<LeftLine> {
    let (word, content) = cut(fields)?;
    Some(LeftLine {
        name: file_name(word)?,
        mark: mark(content)?,
    })
}

fn compared(fields: &[u8]) -> Option<(Vec<u8>, Vec<u8>, Compared)> {
    let (stage, rest) = cut(fields)?;
    let (binary, rest) = cut(rest)?;
    let (how, numbers) = cut(rest)?;
    let found = match how {
        b"equal" => Compared::Equal(number(numbers)?),
        b"differs" => {
            let (offset, lengths) = cut(numbers)?;
            let (ours, theirs) = cut(lengths)?;
            let (offset, ours, theirs) = (number(offset)?, number(ours)?, number(theirs)?);
            if offset > ours || offset > theirs || (offset == ours && offset == theirs) {
                return None;
            }
            Compared::Differs(offset, ours, theirs)
        }
        _ => return None,
    };
    Some((name(stage)?, name(binary)?, found))
}

fn starts(lines: &Lines, kind: &[u8]) -> bool {
    lines.rest.starts_with(kind)
}

fn stage(lines: &mut Lines) -> Option<Stage> {
    let (word, steps) = cut(lines.fields(b"stage")?)?;
    let (name, steps) = (name(word)?, number(steps)?);
    let streams = [mark(lines.fields(b"stream 1")?)?, mark(lines.fields(b"stream 2")?)?];
    let mut files: Vec<LeftLine> = Vec::new();
    while starts(lines, b"left ") {
        let file = left(lines.fields(b"left")?)?;
        if files.len() == 4096 || files.last().is_some_and(|last| last.name >= file.name) {
            return None;
        }
        files.push(file);
    }
    let made = mark(lines.fields(b"made")?)?;
    let checked = if lines.takes(b"unchecked") {
        None
    } else {
        let language = lines.fields(b"checked")?;
        if !matches!(language, b"hex0" | b"hex1" | b"hex2" | b"m1") {
            return None;
        }
        Some(language.to_vec())
    };
    Some(Stage {
        name,
        steps,
        streams,
        left: files,
        made,
        checked,
    })
}

fn report(lines: &mut Lines) -> Option<Report> {
    lines.takes(b"ddc-report 1").then_some(())?;
    let recipe = digest(lines.fields(b"recipe")?)?;
    let mut inputs = Vec::new();
    while inputs.is_empty() || starts(lines, b"input ") {
        let fields = lines.fields(b"input")?;
        if inputs.len() == 256 {
            return None;
        }
        inputs.push(input(fields)?);
    }
    let mut stages = Vec::new();
    while stages.is_empty() || starts(lines, b"stage ") {
        if stages.len() == 256 {
            lines.fields(b"stage")?;
            return None;
        }
        stages.push(stage(lines)?);
    }
    let compared = compared(lines.fields(b"compare")?)?;
    lines.takes(b"end").then_some(())?;
    lines.number = lines.taken + 1;
    lines.rest.is_empty().then_some(Report {
        recipe,
        inputs,
        stages,
        compared,
    })
}

fn put_hex(out: &mut Vec<u8>, bytes: &[u8]) {
    const DIGITS: &[u8; 16] = b"0123456789abcdef";
    for byte in bytes {
        out.push(DIGITS[usize::from(byte / 16)]);
        out.push(DIGITS[usize::from(byte % 16)]);
    }
}

fn put_mark(out: &mut Vec<u8>, mark: &Mark) -> io::Result<()> {
    write!(out, "{} ", mark.length)?;
    put_hex(out, &mark.digest);
    out.push(b'\n');
    Ok(())
}

fn put_stage(out: &mut Vec<u8>, stage: &Stage) -> io::Result<()> {
    out.extend(b"stage ");
    out.extend(&stage.name);
    writeln!(out, " {}", stage.steps)?;
    for (number, mark) in ["1", "2"].iter().zip(&stage.streams) {
        write!(out, "stream {number} ")?;
        put_mark(out, mark)?;
    }
    for file in &stage.left {
        out.extend(b"left ");
        put_hex(out, &file.name);
        out.push(b' ');
        put_mark(out, &file.mark)?;
    }
    out.extend(b"made ");
    put_mark(out, &stage.made)?;
    match &stage.checked {
        None => out.extend(b"unchecked"),
        Some(language) => {
            out.extend(b"checked ");
            out.extend(language);
        }
    }
    out.push(b'\n');
    Ok(())
}

fn text_of(report: &Report) -> io::Result<Vec<u8>> {
    let mut out = b"ddc-report 1\nrecipe ".to_vec();
    put_hex(&mut out, &report.recipe);
    out.push(b'\n');
    for input in &report.inputs {
        out.extend(b"input ");
        out.extend(&input.name);
        out.push(b' ');
        put_mark(&mut out, &input.mark)?;
    }
    for stage in &report.stages {
        put_stage(&mut out, stage)?;
    }
    let (stage, binary, found) = &report.compared;
    out.extend(b"compare ");
    out.extend(stage);
    out.push(b' ');
    out.extend(binary);
    match found {
        Compared::Equal(length) => writeln!(out, " equal {length}")?,
        Compared::Differs(offset, ours, theirs) => writeln!(out, " differs {offset} {ours} {theirs}")?,
    }
    out.extend(b"end\n");
    Ok(out)
}

fn main() -> ExitCode {
    let words: Vec<String> = env::args().skip(1).collect();
    let [path] = words.as_slice() else {
        return ExitCode::from(2);
    };
    let Ok(content) = fs::read(path) else {
        return ExitCode::from(10);
    };
    let mut lines = Lines {
        rest: &content,
        taken: 0,
        number: 1,
    };
    let (status, text) = match report(&mut lines) {
        Some(report) => {
            drop(content);
            (0, text_of(&report).expect("a vector takes all"))
        }
        None => (5, format!("report line {}\n", lines.number).into_bytes()),
    };
    if io::stdout().write_all(&text).is_err() {
        return ExitCode::from(12);
    }
    ExitCode::from(status)
}
