//! A plain assembler of hex2 (and hex1), and of M1, by the rules of docs/reference/, for bench/asm: no contracts, a vector of items,
//! std's map.
//!
//!     plain LANG BASE SOURCE OUT

mod m1;

use std::collections::HashMap;
use std::{env, fs, process};

#[derive(Clone, Copy)]
enum Kind {
    I,
    B,
    J,
    U,
}

enum Item<'s> {
    Byte(u8),
    Label(&'s [u8]),
    Word(u32, Kind, &'s [u8]),
    Rel(&'s [u8]),
    Gap(&'s [u8], &'s [u8]),
    Abs(&'s [u8]),
    Pad,
}

/// A refusal's number and its place.
type Refusal = (u32, usize);

const MOST_ITEMS: usize = 33_554_432;

struct Word<'s> {
    first: usize,
    mask: u32,
    reference: Option<(Kind, &'s [u8])>,
    bytes: [u8; 4],
    count: usize,
}

fn is_blank(byte: u8) -> bool {
    matches!(byte, b' ' | b'\t' | b'\n' | b'\r')
}

fn digit(byte: u8) -> Option<u8> {
    match byte {
        b'0'..=b'9' => Some(byte - b'0'),
        b'a'..=b'f' => Some(byte - b'a' + 10),
        b'A'..=b'F' => Some(byte - b'A' + 10),
        _ => None,
    }
}

/// The next offset past blanks and comments.
fn skip(source: &[u8], mut at: usize) -> usize {
    while at < source.len() {
        match source[at] {
            b'#' | b';' => {
                while at < source.len() && source[at] != b'\n' {
                    at += 1;
                }
            }
            byte if is_blank(byte) => at += 1,
            _ => break,
        }
    }
    at
}

struct Reader<'s> {
    source: &'s [u8],
    two: bool,
    items: Vec<Item<'s>>,
    open: Option<Word<'s>>,
}

impl<'s> Reader<'s> {
    fn name(&self, at: usize) -> &'s [u8] {
        let rest = &self.source[at..];
        if !self.two {
            return match rest.first() {
                Some(byte) if !is_blank(*byte) => &rest[..1],
                _ => &[],
            };
        }
        let end = rest.iter().position(|byte| is_blank(*byte) || *byte == b'>');
        &rest[..end.unwrap_or(rest.len())]
    }

    fn add(&mut self, item: Item<'s>) -> Result<(), Refusal> {
        if self.items.len() == MOST_ITEMS {
            return Err((7, 0));
        }
        self.items.push(item);
        Ok(())
    }

    fn byte(&mut self, byte: u8) -> Result<(), Refusal> {
        let Some(word) = &mut self.open else {
            return self.add(Item::Byte(byte));
        };
        word.bytes[word.count] = byte;
        word.count += 1;
        if word.count < 4 {
            return Ok(());
        }
        let value = word.mask ^ u32::from_le_bytes(word.bytes);
        let reference = word.reference;
        self.open = None;
        match reference {
            Some((kind, name)) => self.add(Item::Word(value, kind, name)),
            None => {
                for byte in value.to_le_bytes() {
                    self.add(Item::Byte(byte))?;
                }
                Ok(())
            }
        }
    }

    fn alone(&mut self, item: Item<'s>) -> Result<(), Refusal> {
        match &self.open {
            Some(word) => Err((3, word.first)),
            None => self.add(item),
        }
    }

    fn field(&mut self, at: usize, mask: u32) -> Result<(), Refusal> {
        match &mut self.open {
            Some(word) if word.count > 0 => Err((3, word.first)),
            Some(word) => {
                word.mask ^= mask;
                Ok(())
            }
            None => {
                self.open = Some(Word { first: at, mask, reference: None, bytes: [0; 4], count: 0 });
                Ok(())
            }
        }
    }

    fn reference(&mut self, at: usize, kind: Kind, name: &'s [u8]) -> Result<(), Refusal> {
        match &mut self.open {
            Some(word) if word.reference.is_some() => Err((2, at)),
            Some(word) if word.count > 0 => Err((3, word.first)),
            Some(word) => {
                word.reference = Some((kind, name));
                Ok(())
            }
            None => {
                self.open = Some(Word { first: at, mask: 0, reference: Some((kind, name)), bytes: [0; 4], count: 0 });
                Ok(())
            }
        }
    }

    /// Takes the token at an offset, and gives the offset after it.
    fn token(&mut self, at: usize) -> Result<usize, Refusal> {
        let sign = self.source[at];
        if let Some(high) = digit(sign) {
            let next = skip(self.source, at + 1);
            let low = self.source.get(next).and_then(|byte| digit(*byte)).ok_or((1, at))?;
            self.byte(16 * high + low)?;
            return Ok(next + 1);
        }
        if sign == b'.' {
            let digits = self.source.get(at + 1..at + 9).ok_or((2, at))?;
            let mut bytes = [0; 4];
            for (byte, pair) in bytes.iter_mut().zip(digits.chunks(2)) {
                *byte = 16 * digit(pair[0]).ok_or((2, at))? + digit(pair[1]).ok_or((2, at))?;
            }
            self.field(at, u32::from_le_bytes(bytes))?;
            return Ok(at + 9);
        }
        if sign == b'<' && self.two {
            self.alone(Item::Pad)?;
            return Ok(at + 1);
        }
        if !b":!@$~&%".contains(&sign) {
            return Err((2, at));
        }
        let name = self.name(at + 1);
        if name.is_empty() {
            return Err((2, at));
        }
        let end = at + 1 + name.len();
        match sign {
            b':' => self.alone(Item::Label(name))?,
            b'&' => self.alone(Item::Abs(name))?,
            b'!' => self.reference(at, Kind::I, name)?,
            b'@' => self.reference(at, Kind::B, name)?,
            b'$' => self.reference(at, Kind::J, name)?,
            b'~' => self.reference(at, Kind::U, name)?,
            _ if self.two && self.source.get(end) == Some(&b'>') => {
                let second = self.name(end + 1);
                if second.is_empty() {
                    return Err((2, at));
                }
                self.alone(Item::Gap(name, second))?;
                return Ok(end + 1 + second.len());
            }
            _ => self.alone(Item::Rel(name))?,
        }
        Ok(end)
    }
}

fn items(source: &[u8], two: bool) -> Result<Vec<Item<'_>>, Refusal> {
    if source.len() > 67_108_864 {
        return Err((7, 0));
    }
    let mut reader = Reader { source, two, items: Vec::new(), open: None };
    let mut at = skip(source, 0);
    while at < source.len() {
        at = reader.token(at)?;
        at = skip(source, at);
    }
    match reader.open {
        Some(word) => Err((3, word.first)),
        None => Ok(reader.items),
    }
}

fn size(address: u64, item: &Item) -> u64 {
    match item {
        Item::Byte(_) => 1,
        Item::Label(_) => 0,
        Item::Pad => (4 - address % 4) % 4,
        _ => 4,
    }
}

fn fits(distance: i64) -> bool {
    (-2_147_483_648..2_147_483_648).contains(&distance)
}

fn b_field(d: u32) -> u32 {
    (d >> 12 & 1) << 31 | (d >> 5 & 0x3f) << 25 | (d >> 1 & 0xf) << 8 | (d >> 11 & 1) << 7
}

fn j_field(d: u32) -> u32 {
    (d >> 20 & 1) << 31 | (d >> 1 & 0x3ff) << 21 | (d >> 11 & 1) << 20 | (d >> 12 & 0xff) << 12
}

fn word(value: u32, kind: Kind, distance: i64) -> Option<u32> {
    let even_within = |half: i64| distance % 2 == 0 && (-half..half).contains(&distance);
    match kind {
        Kind::I => Some(value ^ ((distance + 4) as u32) << 20),
        Kind::U => fits(distance + 2048).then(|| value ^ ((distance + 2048) as u32 & !0xfff)),
        Kind::B => even_within(4096).then(|| value ^ b_field(distance as u32)),
        Kind::J => even_within(1_048_576).then(|| value ^ j_field(distance as u32)),
    }
}

fn link(items: &[Item], base: u64) -> Result<Vec<u8>, Refusal> {
    let mut labels = HashMap::new();
    let mut address = base;
    for (index, item) in items.iter().enumerate() {
        if let Item::Label(name) = item {
            if labels.insert(*name, address).is_some() {
                return Err((4, index));
            }
        }
        address += size(address, item);
    }
    let mut out = Vec::new();
    for (index, item) in items.iter().enumerate() {
        let place = base + out.len() as u64;
        let of = |name: &[u8]| labels.get(name).copied().ok_or((5, index));
        let four = match item {
            Item::Byte(byte) => {
                out.push(*byte);
                continue;
            }
            Item::Label(_) => continue,
            Item::Pad => {
                out.resize(out.len() + size(place, item) as usize, 0);
                continue;
            }
            Item::Word(value, kind, name) => word(*value, *kind, of(name)? as i64 - place as i64),
            Item::Rel(name) => Some(of(name)? as i64 - place as i64 - 4).filter(|d| fits(*d)).map(|d| d as u32),
            Item::Gap(name, other) => Some(of(name)? as i64 - of(other)? as i64).filter(|d| fits(*d)).map(|d| d as u32),
            Item::Abs(name) => u32::try_from(of(name)?).ok(),
        };
        out.extend(four.ok_or((6, index))?.to_le_bytes());
    }
    Ok(out)
}

fn main() {
    let words: Vec<String> = env::args().skip(1).collect();
    let base: u64 = words[1].parse().unwrap();
    let source = fs::read(&words[2]).unwrap();
    let made = match words[0].as_str() {
        "m1" => m1::expand(&source).map(|items| m1::write(&items)),
        language => items(&source, language == "hex2").and_then(|items| link(&items, base)),
    };
    match made {
        Ok(bytes) => {
            fs::write(&words[3], &bytes).unwrap();
            println!("made {}", bytes.len());
        }
        Err((number, place)) => {
            println!("refused {number} {place}");
            process::exit(7);
        }
    }
}
