// Files in memory and the eleven Linux calls, as docs/reference/files.md and calls.md have them, in plain Rust.
use crate::machine::{PAGE, Ram};
use std::collections::BTreeMap;

const ENOENT: u64 = 2;
const EBADF: u64 = 9;
const EFAULT: u64 = 14;
const EEXIST: u64 = 17;
const ENOTDIR: u64 = 20;
const EINVAL: u64 = 22;
const EMFILE: u64 = 24;
const EFBIG: u64 = 27;
const ENOSPC: u64 = 28;
const ESPIPE: u64 = 29;
const ENAMETOOLONG: u64 = 36;

const MAX_CONTENT: u64 = 268_435_456;
const MAX_TOTAL: u64 = 536_870_912;

#[derive(Clone, Copy)]
enum Slot {
    Input,
    Stream(usize),
    File { number: usize, cursor: u64, reads: bool, writes: bool, appends: bool },
}

struct File {
    is_named: bool,
    content: Vec<u8>,
}

pub struct Files {
    names: BTreeMap<Vec<u8>, usize>,
    files: Vec<Option<File>>,
    slots: Vec<Option<Slot>>,
    pub streams: [Vec<u8>; 2],
    total: u64,
}

pub struct Heap {
    pub first: u64,
    pub now: u64,
    pub limit: u64,
}

pub enum CallEnd {
    Back(u64),
    Exit(u8),
    Unknown(u64),
}

type Answer = Result<u64, u64>;

impl Files {
    pub fn new() -> Files {
        let slots = vec![Some(Slot::Input), Some(Slot::Stream(0)), Some(Slot::Stream(1))];
        Files { names: BTreeMap::new(), files: Vec::new(), slots, streams: [Vec::new(), Vec::new()], total: 0 }
    }

    pub fn left(&self) -> impl Iterator<Item = (&[u8], &[u8])> {
        self.names.iter().map(|(name, &number)| (name.as_slice(), self.content(number)))
    }

    fn content(&self, number: usize) -> &[u8] {
        self.files[number].as_ref().map_or(&[], |file| &file.content)
    }

    fn slot(&self, fd: u32) -> Option<Slot> {
        *self.slots.get(fd as usize)?
    }

    fn drop_unused(&mut self, number: usize) {
        let is_open = self.slots.iter().any(|slot| matches!(slot, Some(Slot::File { number: held, .. }) if *held == number));
        if self.files[number].as_ref().is_some_and(|file| !file.is_named) && !is_open {
            self.total -= self.content(number).len() as u64;
            self.files[number] = None;
        }
    }

    fn open(&mut self, name: &[u8], flags: u32) -> Answer {
        let has = |bit: u32| flags & bit != 0;
        if self.slots.iter().flatten().count() >= 1_024 {
            return Err(EMFILE);
        }
        let number = match self.names.get(name) {
            Some(_) if has(64) && has(128) => return Err(EEXIST),
            Some(&number) => {
                if has(512) {
                    self.total -= self.content(number).len() as u64;
                    self.files[number].as_mut().expect("a file").content.clear();
                }
                number
            }
            None if !has(64) => return Err(ENOENT),
            None if self.names.len() >= 4_096 => return Err(ENOSPC),
            None => {
                let number = first_free(&mut self.files);
                self.files[number] = Some(File { is_named: true, content: Vec::new() });
                self.names.insert(name.to_vec(), number);
                number
            }
        };
        let fd = first_free(&mut self.slots);
        self.slots[fd] = Some(Slot::File { number, cursor: 0, reads: flags & 3 != 1, writes: flags & 3 != 0, appends: has(1024) });
        Ok(fd as u64)
    }

    fn close(&mut self, fd: u32) -> Answer {
        let slot = self.slot(fd).ok_or(EBADF)?;
        self.slots[fd as usize] = None;
        if let Slot::File { number, .. } = slot {
            self.drop_unused(number);
        }
        Ok(0)
    }

    fn seek(&mut self, fd: u32, offset: i64, whence: u32) -> Answer {
        let Slot::File { number, cursor, .. } = self.slot(fd).ok_or(EBADF)? else { return Err(ESPIPE) };
        let base = match whence {
            0 => 0,
            1 => cursor,
            2 => self.content(number).len() as u64,
            _ => return Err(EINVAL),
        };
        let to = (base as i64).checked_add(offset).filter(|&to| to >= 0).ok_or(EINVAL)? as u64;
        if let Some(Slot::File { cursor, .. }) = &mut self.slots[fd as usize] {
            *cursor = to;
        }
        Ok(to)
    }

    fn read(&mut self, ram: &mut Ram, fd: u32, buffer: u64, count: u64) -> Answer {
        let (number, from) = match self.slot(fd) {
            Some(Slot::Input) => return Ok(0),
            Some(Slot::File { number, cursor, reads: true, .. }) => (number, cursor),
            _ => return Err(EBADF),
        };
        let content = self.content(number);
        let from = from.min(content.len() as u64);
        let count = count.min(content.len() as u64 - from);
        if count == 0 {
            return Ok(0);
        }
        ram.bytes_mut(buffer, count).ok_or(EFAULT)?.copy_from_slice(&content[from as usize..(from + count) as usize]);
        if let Some(Slot::File { cursor, .. }) = &mut self.slots[fd as usize] {
            *cursor = from + count;
        }
        Ok(count)
    }

    fn write(&mut self, ram: &Ram, fd: u32, buffer: u64, count: u64) -> Answer {
        let (len, place) = match self.slot(fd) {
            Some(Slot::Stream(which)) => (self.streams[which].len() as u64, self.streams[which].len() as u64),
            Some(Slot::File { number, cursor, writes: true, appends, .. }) => {
                let len = self.content(number).len() as u64;
                (len, if appends { len } else { cursor })
            }
            _ => return Err(EBADF),
        };
        if count == 0 {
            return Ok(0);
        }
        let bytes = ram.bytes(buffer, count).ok_or(EFAULT)?;
        if place > MAX_CONTENT || count > MAX_CONTENT - place {
            return Err(EFBIG);
        }
        let growth = (place + count).saturating_sub(len);
        if self.total + growth > MAX_TOTAL {
            return Err(ENOSPC);
        }
        self.total += growth;
        match &mut self.slots[fd as usize] {
            Some(Slot::Stream(which)) => self.streams[*which].extend_from_slice(bytes),
            Some(Slot::File { number, cursor, .. }) => {
                let content = &mut self.files[*number].as_mut().expect("a file").content;
                if growth > 0 {
                    content.resize((place + count) as usize, 0);
                }
                content[place as usize..(place + count) as usize].copy_from_slice(bytes);
                *cursor = place + count;
            }
            _ => {}
        }
        Ok(count)
    }

    fn remove(&mut self, name: &[u8]) -> Answer {
        let number = self.names.remove(name).ok_or(ENOENT)?;
        self.files[number].as_mut().expect("a file").is_named = false;
        self.drop_unused(number);
        Ok(0)
    }

    fn check_directory(&self, dir: u32, name: &[u8]) -> Result<(), u64> {
        if name[0] == b'/' || dir as i32 == -100 {
            return Ok(());
        }
        Err(if self.slot(dir).is_some() { ENOTDIR } else { EBADF })
    }

    fn check_present(&self, name: &[u8]) -> Answer {
        if self.names.contains_key(name) { Ok(0) } else { Err(ENOENT) }
    }
}

fn first_free<T>(cells: &mut Vec<Option<T>>) -> usize {
    let at = cells.iter().position(Option::is_none).unwrap_or(cells.len());
    if at == cells.len() {
        cells.push(None);
    }
    at
}

// The name that a path at an address has.
fn name_at(ram: &Ram, at: u64) -> Result<Vec<u8>, u64> {
    let mut path = Vec::new();
    loop {
        if path.len() == 256 {
            return Err(ENAMETOOLONG);
        }
        match at.checked_add(path.len() as u64).and_then(|at| ram.load(at, 1)) {
            None => return Err(EFAULT),
            Some(0) => break,
            Some(byte) => path.push(byte as u8),
        }
    }
    let mut name = path.as_slice();
    while let Some(rest) = name.strip_prefix(b"./") {
        name = rest;
    }
    if name.is_empty() { Err(ENOENT) } else { Ok(name.to_vec()) }
}

fn open_at(ram: &Ram, files: &mut Files, dir: u32, at: u64, flags: u32) -> Answer {
    let name = name_at(ram, at)?;
    if flags & 3 == 3 {
        return Err(EINVAL);
    }
    files.check_directory(dir, &name)?;
    files.open(&name, flags)
}

// The name that a path at an address has, with the right directory.
fn named(ram: &Ram, files: &Files, dir: u32, at: u64) -> Result<Vec<u8>, u64> {
    let name = name_at(ram, at)?;
    files.check_directory(dir, &name)?;
    Ok(name)
}

fn brk(ram: &mut Ram, heap: &mut Heap, to: u64) -> u64 {
    if to < heap.first || to > heap.first + heap.limit {
        return heap.now;
    }
    let (old, new) = (heap.now.next_multiple_of(PAGE), to.next_multiple_of(PAGE));
    if old < new {
        ram.map_zero(old, (new - old) / PAGE);
    } else {
        ram.unmap(new, (old - new) / PAGE);
    }
    heap.now = to;
    to
}

pub fn call(number: u64, words: [u64; 3], ram: &mut Ram, files: &mut Files, heap: &mut Heap) -> CallEnd {
    let [a, b, c] = words;
    let answer = match number {
        35 => named(ram, files, a as u32, b).and_then(|name| if c as u32 != 0 { Err(EINVAL) } else { files.remove(&name) }),
        48 => named(ram, files, a as u32, b).and_then(|name| if c as u32 > 7 { Err(EINVAL) } else { files.check_present(&name) }),
        53 => named(ram, files, a as u32, b).and_then(|name| files.check_present(&name)),
        56 => open_at(ram, files, a as u32, b, c as u32),
        57 => files.close(a as u32),
        62 => files.seek(a as u32, b as i64, c as u32),
        63 => files.read(ram, a as u32, b, c),
        64 => files.write(ram, a as u32, b, c),
        93 | 94 => return CallEnd::Exit(a as u8),
        214 => Ok(brk(ram, heap, a)),
        _ => return CallEnd::Unknown(number),
    };
    CallEnd::Back(answer.unwrap_or_else(u64::wrapping_neg))
}
