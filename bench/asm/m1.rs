//! M1 by the rules of docs/reference/m1.md: words, definitions, and the text of the items.

use crate::{Item, Kind, Reader, Refusal, digit, is_blank, skip};
use std::collections::HashMap;

type Definitions<'s> = HashMap<&'s [u8], &'s [u8]>;

struct Words<'s> {
    source: &'s [u8],
    at: usize,
}

impl<'s> Iterator for Words<'s> {
    /// An offset and a word, or the offset of a quote that isn't closed.
    type Item = Result<(usize, &'s [u8]), usize>;

    fn next(&mut self) -> Option<Self::Item> {
        let start = skip(self.source, self.at);
        let rest = &self.source[start..];
        let first = *rest.first()?;
        let end = if first == b'"' || first == b'\'' {
            match rest[1..].iter().position(|byte| *byte == first) {
                Some(place) => place + 2,
                None => {
                    self.at = self.source.len();
                    return Some(Err(start));
                }
            }
        } else {
            rest.iter().position(|byte| is_blank(*byte)).unwrap_or(rest.len())
        };
        self.at = start + end;
        Some(Ok((start, &rest[..end])))
    }
}

fn words(source: &[u8]) -> Words<'_> {
    Words { source, at: 0 }
}

fn pairs(text: &[u8]) -> Option<impl Iterator<Item = u8>> {
    let good = !text.is_empty() && text.len() % 2 == 0 && text.iter().all(|byte| digit(*byte).is_some());
    good.then(|| text.chunks_exact(2).map(|pair| 16 * digit(pair[0]).unwrap_or(0) + digit(pair[1]).unwrap_or(0)))
}

fn field(text: &[u8]) -> Option<u32> {
    let digits = text.strip_prefix(b".").filter(|digits| digits.len() == 8)?;
    let mut bytes = [0; 4];
    for (byte, value) in bytes.iter_mut().zip(pairs(digits)?) {
        *byte = value;
    }
    Some(u32::from_le_bytes(bytes))
}

fn number(text: &[u8]) -> Option<i64> {
    let (minus, text) = match text.strip_prefix(b"-") {
        Some(rest) => (true, rest),
        None => (false, text),
    };
    let (base, digits) = match text.strip_prefix(b"0x") {
        Some(rest) => (16, rest),
        None => (10, text),
    };
    if digits.is_empty() {
        return None;
    }
    let mut value: i64 = 0;
    for byte in digits {
        let digit = i64::from(digit(*byte)?);
        if digit >= base {
            return None;
        }
        value = (base * value + digit).min(1 << 40);
    }
    Some(if minus { -value } else { value })
}

fn definitions(source: &[u8]) -> Result<Definitions<'_>, Refusal> {
    let mut table = HashMap::new();
    let mut all = words(source);
    let mut refusal = None;
    while let Some(word) = all.next() {
        let (at, text) = word.map_err(|at| (3, at))?;
        if text != b"DEFINE" || refusal.is_some() {
            continue;
        }
        let (Some(name), Some(value)) = (all.next().transpose().map_err(|at| (3, at))?, all.next().transpose().map_err(|at| (3, at))?) else {
            refusal = Some((1, at));
            continue;
        };
        if field(value.1).is_none() && pairs(value.1).is_none() {
            refusal = Some((1, at));
        } else if table.insert(name.1, value.1).is_some() {
            refusal = Some((2, at));
        }
    }
    refusal.map_or(Ok(table), Err)
}

impl<'s> Reader<'s> {
    fn bytes(&mut self, bytes: impl Iterator<Item = u8>) -> Result<(), Refusal> {
        for byte in bytes {
            self.byte(byte)?;
        }
        Ok(())
    }

    /// Takes a value; false where it is none.
    fn value(&mut self, at: usize, text: &'s [u8]) -> Result<bool, Refusal> {
        if let Some(mask) = field(text) {
            self.field(at, mask)?;
        } else if let Some(bytes) = pairs(text) {
            self.bytes(bytes)?;
        } else {
            return Ok(false);
        }
        Ok(true)
    }

    fn numbered(&mut self, at: usize, sign: u8, n: i64) -> Result<(), Refusal> {
        let range = if sign == b'!' || sign == b'@' { -2048..2048 } else { -2_147_483_648..4_294_967_296 };
        if !range.contains(&n) {
            return Err((5, at));
        }
        match sign {
            b'!' => self.field(at, (n as u32) << 20),
            b'@' => self.field(at, (n as u32 >> 5 & 0x7f) << 25 | (n as u32 & 0x1f) << 7),
            b'~' => self.field(at, (n + 2048) as u32 & !0xfff),
            _ => self.bytes((n as u32).to_le_bytes().into_iter()),
        }
    }

    fn word(&mut self, table: &Definitions<'s>, at: usize, text: &'s [u8]) -> Result<(), Refusal> {
        if let Some(value) = table.get(text) {
            self.value(at, value)?;
            return Ok(());
        }
        let (first, rest) = (text[0], &text[1..]);
        if first == b'"' {
            let inside = &rest[..rest.len() - 1];
            return self.bytes(inside.iter().copied().chain(std::iter::repeat_n(0, 4 - inside.len() % 4)));
        }
        if first == b'\'' {
            let bytes = pairs(&rest[..rest.len() - 1]).ok_or((4, at))?;
            return self.bytes(bytes);
        }
        if self.value(at, text)? {
            return Ok(());
        }
        if b"!@~%".contains(&first) {
            if let Some(n) = number(rest) {
                return self.numbered(at, first, n);
            }
        }
        let is_name = |name: &[u8]| !name.is_empty() && !name.contains(&b'>');
        match first {
            b'%' => match rest.iter().position(|byte| *byte == b'>') {
                Some(place) if is_name(&rest[..place]) && is_name(&rest[place + 1..]) => self.alone(Item::Gap(&rest[..place], &rest[place + 1..])),
                None if is_name(rest) => self.alone(Item::Rel(rest)),
                _ => Err((4, at)),
            },
            b'<' if rest.is_empty() => self.alone(Item::Pad),
            _ if !is_name(rest) => Err((4, at)),
            b'!' => self.reference(at, Kind::I, rest),
            b'@' => self.reference(at, Kind::B, rest),
            b'$' => self.reference(at, Kind::J, rest),
            b'~' => self.reference(at, Kind::U, rest),
            b':' => self.alone(Item::Label(rest)),
            b'&' => self.alone(Item::Abs(rest)),
            _ => Err((4, at)),
        }
    }
}

/// The refusals of the word layer by their numbers in M1.
fn renumbered(refusal: Refusal, at: usize) -> Refusal {
    match refusal {
        (2, place) if place == at => (4, place),
        (3, first) => (6, first),
        other => other,
    }
}

pub fn expand(source: &[u8]) -> Result<Vec<Item<'_>>, Refusal> {
    if source.len() > 67_108_864 {
        return Err((7, 0));
    }
    let table = definitions(source)?;
    let mut reader = Reader { source, two: true, items: Vec::new(), open: None };
    let mut all = words(source);
    while let Some(Ok((at, text))) = all.next() {
        if text == b"DEFINE" {
            all.nth(1);
        } else {
            reader.word(&table, at, text).map_err(|refusal| renumbered(refusal, at))?;
        }
    }
    match reader.open {
        Some(word) => Err((6, word.first)),
        None => Ok(reader.items),
    }
}

const DIGITS: &[u8; 16] = b"0123456789ABCDEF";

fn put_byte(out: &mut Vec<u8>, byte: u8) {
    out.extend_from_slice(&[DIGITS[usize::from(byte >> 4)], DIGITS[usize::from(byte & 15)]]);
}

fn put_named(out: &mut Vec<u8>, sign: u8, name: &[u8]) {
    out.push(sign);
    out.extend_from_slice(name);
}

pub fn write(items: &[Item]) -> Vec<u8> {
    let mut out = Vec::new();
    for item in items {
        match item {
            Item::Byte(byte) => put_byte(&mut out, *byte),
            Item::Label(name) => put_named(&mut out, b':', name),
            Item::Word(value, kind, name) => {
                let sign = match kind {
                    Kind::I => b'!',
                    Kind::B => b'@',
                    Kind::J => b'$',
                    Kind::U => b'~',
                };
                put_named(&mut out, sign, name);
                out.push(b' ');
                for byte in value.to_le_bytes() {
                    put_byte(&mut out, byte);
                }
            }
            Item::Rel(name) => put_named(&mut out, b'%', name),
            Item::Gap(name, other) => {
                put_named(&mut out, b'%', name);
                put_named(&mut out, b'>', other);
            }
            Item::Abs(name) => put_named(&mut out, b'&', name),
            Item::Pad => out.push(b'<'),
        }
        out.push(b'\n');
    }
    out
}
