// A plain Rust RV64IM machine of the same shape as the proved one, for the benches: it decodes each word into a struct, matches on its
// operation, and finds a page by binary search among the numbers of the mapped ones, whose bytes stand in one vector.

#[derive(Clone, Copy)]
pub enum Op {
    Lui, Auipc, Jal, Jalr, Beq, Bne, Blt, Bge, Bltu, Bgeu, Lb, Lh, Lw, Ld, Lbu, Lhu, Lwu, Sb, Sh, Sw, Sd, Addi, Slti, Sltiu, Xori, Ori,
    Andi, Slli, Srli, Srai, Add, Sub, Sll, Slt, Sltu, Xor, Srl, Sra, Or, And, Fence, Ecall, Ebreak, Addiw, Slliw, Srliw, Sraiw, Addw,
    Subw, Sllw, Srlw, Sraw, Mul, Mulh, Mulhsu, Mulhu, Div, Divu, Rem, Remu, Mulw, Divw, Divuw, Remw, Remuw,
}

#[derive(Clone, Copy)]
pub struct Inst { op: Op, rd: u8, rs1: u8, rs2: u8, imm: i64 }

fn op_of(word: u32) -> Option<Op> {
    use Op::*;
    let (funct3, funct7) = (word >> 12 & 7, word >> 25);
    Some(match (word & 0x7f, funct3, funct7) {
        (0x37, _, _) => Lui, (0x17, _, _) => Auipc, (0x6f, _, _) => Jal, (0x67, 0, _) => Jalr,
        (0x63, 0, _) => Beq, (0x63, 1, _) => Bne, (0x63, 4, _) => Blt, (0x63, 5, _) => Bge, (0x63, 6, _) => Bltu, (0x63, 7, _) => Bgeu,
        (0x03, 0, _) => Lb, (0x03, 1, _) => Lh, (0x03, 2, _) => Lw, (0x03, 3, _) => Ld, (0x03, 4, _) => Lbu, (0x03, 5, _) => Lhu,
        (0x03, 6, _) => Lwu,
        (0x23, 0, _) => Sb, (0x23, 1, _) => Sh, (0x23, 2, _) => Sw, (0x23, 3, _) => Sd,
        (0x13, 0, _) => Addi, (0x13, 2, _) => Slti, (0x13, 3, _) => Sltiu, (0x13, 4, _) => Xori, (0x13, 6, _) => Ori, (0x13, 7, _) => Andi,
        (0x13, 1, f) if f >> 1 == 0 => Slli, (0x13, 5, f) if f >> 1 == 0 => Srli, (0x13, 5, f) if f >> 1 == 16 => Srai,
        (0x33, 0, 0) => Add, (0x33, 0, 32) => Sub, (0x33, 1, 0) => Sll, (0x33, 2, 0) => Slt, (0x33, 3, 0) => Sltu, (0x33, 4, 0) => Xor,
        (0x33, 5, 0) => Srl, (0x33, 5, 32) => Sra, (0x33, 6, 0) => Or, (0x33, 7, 0) => And,
        (0x33, 0, 1) => Mul, (0x33, 1, 1) => Mulh, (0x33, 2, 1) => Mulhsu, (0x33, 3, 1) => Mulhu, (0x33, 4, 1) => Div, (0x33, 5, 1) => Divu,
        (0x33, 6, 1) => Rem, (0x33, 7, 1) => Remu,
        (0x0f, 0, _) => Fence,
        (0x73, _, _) if word == 0x73 => Ecall, (0x73, _, _) if word == 0x100073 => Ebreak,
        (0x1b, 0, _) => Addiw, (0x1b, 1, 0) => Slliw, (0x1b, 5, 0) => Srliw, (0x1b, 5, 32) => Sraiw,
        (0x3b, 0, 0) => Addw, (0x3b, 0, 32) => Subw, (0x3b, 1, 0) => Sllw, (0x3b, 5, 0) => Srlw, (0x3b, 5, 32) => Sraw,
        (0x3b, 0, 1) => Mulw, (0x3b, 4, 1) => Divw, (0x3b, 5, 1) => Divuw, (0x3b, 6, 1) => Remw, (0x3b, 7, 1) => Remuw,
        _ => return None,
    })
}

fn decode(word: u32) -> Option<Inst> {
    use Op::*;
    let op = op_of(word)?;
    let signed = word as i32;
    let imm = match op {
        Lui | Auipc => i64::from(signed & !0xfff),
        Jal => i64::from((signed >> 31 << 20) | ((word & 0xff000) | (word >> 9 & 0x800) | (word >> 20 & 0x7fe)) as i32),
        Beq | Bne | Blt | Bge | Bltu | Bgeu => {
            i64::from((signed >> 31 << 12) | ((word << 4 & 0x800) | (word >> 20 & 0x7e0) | (word >> 7 & 0x1e)) as i32)
        }
        Sb | Sh | Sw | Sd => i64::from((signed >> 25 << 5) | (word >> 7 & 31) as i32),
        Slli | Srli | Srai => i64::from(word >> 20 & 63),
        Slliw | Srliw | Sraiw => i64::from(word >> 20 & 31),
        _ => i64::from(signed >> 20),
    };
    Some(Inst { op, rd: (word >> 7 & 31) as u8, rs1: (word >> 15 & 31) as u8, rs2: (word >> 20 & 31) as u8, imm })
}

pub const PAGE: u64 = 4096;

pub struct Ram {
    pages: Vec<u64>,
    bytes: Vec<u8>,
}

impl Ram {
    pub fn new() -> Ram {
        Ram { pages: Vec::new(), bytes: Vec::new() }
    }

    // Puts pages of zeros where none is.
    pub fn map_zero(&mut self, first: u64, count: u64) {
        let number = first / PAGE;
        let at = self.pages.partition_point(|&page| page < number);
        self.pages.splice(at..at, number..number + count);
        let start = at * PAGE as usize;
        self.bytes.splice(start..start, std::iter::repeat_n(0, (count * PAGE) as usize));
    }

    pub fn unmap(&mut self, first: u64, count: u64) {
        let at = self.pages.partition_point(|&page| page < first / PAGE);
        self.pages.drain(at..at + count as usize);
        self.bytes.drain(at * PAGE as usize..(at + count as usize) * PAGE as usize);
    }

    // The index of a mapped page: a first guess for pages in a row, and else a binary search.
    fn find(&self, page: u64) -> Option<usize> {
        let guess = page.wrapping_sub(*self.pages.first()?) as usize;
        if self.pages.get(guess) == Some(&page) {
            return Some(guess);
        }
        self.pages.binary_search(&page).ok()
    }

    // Where the bytes of an access stand, if all of them are mapped: pages that follow each other are neighbours in the vector too.
    pub fn span(&self, at: u64, count: u64) -> Option<std::ops::Range<usize>> {
        let Some(last) = count.checked_sub(1) else { return Some(0..0) };
        let last = at.checked_add(last)?;
        let index = self.find(at / PAGE)?;
        let more = last / PAGE - at / PAGE;
        if more > 0 && self.pages.get(index + more as usize) != Some(&(last / PAGE)) {
            return None;
        }
        let start = index * PAGE as usize + (at % PAGE) as usize;
        Some(start..start + count as usize)
    }

    pub fn bytes(&self, at: u64, count: u64) -> Option<&[u8]> {
        Some(&self.bytes[self.span(at, count)?])
    }

    pub fn bytes_mut(&mut self, at: u64, count: u64) -> Option<&mut [u8]> {
        let span = self.span(at, count)?;
        Some(&mut self.bytes[span])
    }

    pub fn load(&self, at: u64, count: usize) -> Option<u64> {
        let mut value = [0; 8];
        value[..count].copy_from_slice(self.bytes(at, count as u64)?);
        Some(u64::from_le_bytes(value))
    }

    pub fn store(&mut self, at: u64, count: usize, value: u64) -> Option<()> {
        self.bytes_mut(at, count as u64)?.copy_from_slice(&value.to_le_bytes()[..count]);
        Some(())
    }
}

pub enum Cause {
    Illegal(u32),
    FetchUnmapped(u64),
    FetchMisaligned(u64),
    LoadUnmapped(u64),
    StoreUnmapped(u64),
    Break,
}

pub enum StepEnd {
    Done,
    Call,
    Trap(Cause),
}

pub struct Hart {
    pub x: [u64; 32],
    pub pc: u64,
    pub ram: Ram,
}

fn word(n: u32) -> u64 {
    n as i32 as i64 as u64
}

impl Hart {
    fn pass(&mut self) -> StepEnd {
        self.pc = self.pc.wrapping_add(4);
        StepEnd::Done
    }

    fn put(&mut self, rd: u8, value: u64) -> StepEnd {
        if rd != 0 {
            self.x[rd as usize] = value;
        }
        self.pass()
    }

    fn jump(&mut self, target: u64) -> StepEnd {
        if target % 4 != 0 {
            return StepEnd::Trap(Cause::FetchMisaligned(target));
        }
        self.pc = target;
        StepEnd::Done
    }

    // The value in x10, and on at the next instruction.
    pub fn answer(&mut self, value: u64) {
        self.put(10, value);
    }

    pub fn step(&mut self) -> StepEnd {
        use Op::*;
        let Some(fetched) = self.ram.load(self.pc, 4) else { return StepEnd::Trap(Cause::FetchUnmapped(self.pc)) };
        let Some(Inst { op, rd, rs1, rs2, imm }) = decode(fetched as u32) else { return StepEnd::Trap(Cause::Illegal(fetched as u32)) };
        let (a, b, i) = (self.x[rs1 as usize], self.x[rs2 as usize], imm as u64);
        let (aw, bw) = (a as u32, b as u32);
        let at = a.wrapping_add(i);
        let target = self.pc.wrapping_add(i);
        let value = match op {
            Lui => i,
            Auipc => target,
            Jal | Jalr => {
                let link = self.pc.wrapping_add(4);
                let end = self.jump(if matches!(op, Jal) { target } else { at & !1 });
                if rd != 0 && matches!(end, StepEnd::Done) {
                    self.x[rd as usize] = link;
                }
                return end;
            }
            Beq | Bne | Blt | Bge | Bltu | Bgeu => {
                let taken = match op {
                    Beq => a == b, Bne => a != b, Blt => (a as i64) < b as i64, Bge => a as i64 >= b as i64, Bltu => a < b, _ => a >= b,
                };
                return if taken { self.jump(target) } else { self.pass() };
            }
            Lb | Lh | Lw | Ld | Lbu | Lhu | Lwu => {
                let count = match op { Lb | Lbu => 1, Lh | Lhu => 2, Lw | Lwu => 4, _ => 8 };
                let Some(value) = self.ram.load(at, count) else { return StepEnd::Trap(Cause::LoadUnmapped(at)) };
                match op { Lb => value as i8 as u64, Lh => value as i16 as u64, Lw => value as i32 as u64, _ => value }
            }
            Sb | Sh | Sw | Sd => {
                let count = match op { Sb => 1, Sh => 2, Sw => 4, _ => 8 };
                return match self.ram.store(at, count, b) {
                    Some(()) => self.pass(),
                    None => StepEnd::Trap(Cause::StoreUnmapped(at)),
                };
            }
            Fence => return self.pass(),
            Ecall => return StepEnd::Call,
            Ebreak => return StepEnd::Trap(Cause::Break),
            Addi => at, Slti => u64::from((a as i64) < imm), Sltiu => u64::from(a < i), Xori => a ^ i, Ori => a | i, Andi => a & i,
            Slli => a << (i & 63), Srli => a >> (i & 63), Srai => (a as i64 >> (i & 63)) as u64,
            Add => a.wrapping_add(b), Sub => a.wrapping_sub(b), Sll => a << (b & 63), Slt => u64::from((a as i64) < b as i64),
            Sltu => u64::from(a < b), Xor => a ^ b, Srl => a >> (b & 63), Sra => (a as i64 >> (b & 63)) as u64, Or => a | b, And => a & b,
            Addiw => word(aw.wrapping_add(i as u32)), Slliw => word(aw << (i & 31)), Srliw => word(aw >> (i & 31)),
            Sraiw => word((aw as i32 >> (i & 31)) as u32), Addw => word(aw.wrapping_add(bw)), Subw => word(aw.wrapping_sub(bw)),
            Sllw => word(aw << (bw & 31)), Srlw => word(aw >> (bw & 31)), Sraw => word((aw as i32 >> (bw & 31)) as u32),
            Mul => a.wrapping_mul(b), Mulh => ((i128::from(a as i64) * i128::from(b as i64)) >> 64) as u64,
            Mulhsu => ((i128::from(a as i64) * b as i128) >> 64) as u64, Mulhu => ((u128::from(a) * u128::from(b)) >> 64) as u64,
            Div => if b == 0 { u64::MAX } else { (a as i64).wrapping_div(b as i64) as u64 },
            Divu => a.checked_div(b).unwrap_or(u64::MAX),
            Rem => if b == 0 { a } else { (a as i64).wrapping_rem(b as i64) as u64 },
            Remu => a.checked_rem(b).unwrap_or(a),
            Mulw => word(aw.wrapping_mul(bw)),
            Divw => if bw == 0 { u64::MAX } else { word((aw as i32).wrapping_div(bw as i32) as u32) },
            Divuw => word(aw.checked_div(bw).unwrap_or(u32::MAX)),
            Remw => if bw == 0 { word(aw) } else { word((aw as i32).wrapping_rem(bw as i32) as u32) },
            Remuw => word(aw.checked_rem(bw).unwrap_or(aw)),
        };
        self.put(rd, value)
    }
}
