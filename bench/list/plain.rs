// A plain Rust program of the same shape as `ddc list`, for the bench: it prints the same text for the same file.
use std::fmt::Write as _;
use std::io::Write as _;
use std::{env, fs, io};

#[derive(Clone, Copy)]
enum Form { R, I, Load, H, K, S, B, U, J }

struct Inst { name: &'static str, form: Form }

fn find(word: u32) -> Option<Inst> {
    use Form::*;
    let funct3 = word >> 12 & 7;
    let funct7 = word >> 25;
    let (name, form) = match (word & 0x7f, funct3, funct7) {
        (0x37, _, _) => ("lui", U),
        (0x17, _, _) => ("auipc", U),
        (0x6f, _, _) => ("jal", J),
        (0x67, 0, _) => ("jalr", Load),
        (0x63, f, _) => (*["beq", "bne", "", "", "blt", "bge", "bltu", "bgeu"].get(f as usize)?, B),
        (0x03, f, _) => (*["lb", "lh", "lw", "ld", "lbu", "lhu", "lwu", ""].get(f as usize)?, Load),
        (0x23, f, _) => (*["sb", "sh", "sw", "sd", "", "", "", ""].get(f as usize)?, S),
        (0x13, 1, f) if f >> 1 == 0 => ("slli", H),
        (0x13, 5, f) if f >> 1 == 0 => ("srli", H),
        (0x13, 5, f) if f >> 1 == 0x10 => ("srai", H),
        (0x13, f, _) => (*["addi", "", "slti", "sltiu", "xori", "", "ori", "andi"].get(f as usize)?, I),
        (0x33, f, 0) => (*["add", "sll", "slt", "sltu", "xor", "srl", "or", "and"].get(f as usize)?, R),
        (0x33, 0, 0x20) => ("sub", R),
        (0x33, 5, 0x20) => ("sra", R),
        (0x33, f, 1) => (*["mul", "mulh", "mulhsu", "mulhu", "div", "divu", "rem", "remu"].get(f as usize)?, R),
        (0x0f, 0, _) => ("fence", I),
        (0x73, _, _) if word == 0x73 => ("ecall", I),
        (0x73, _, _) if word == 0x0010_0073 => ("ebreak", I),
        (0x1b, 0, _) => ("addiw", I),
        (0x1b, 1, 0) => ("slliw", K),
        (0x1b, 5, 0) => ("srliw", K),
        (0x1b, 5, 0x20) => ("sraiw", K),
        (0x3b, 0, 0) => ("addw", R),
        (0x3b, 0, 0x20) => ("subw", R),
        (0x3b, 1, 0) => ("sllw", R),
        (0x3b, 5, 0) => ("srlw", R),
        (0x3b, 5, 0x20) => ("sraw", R),
        (0x3b, f, 1) => (*["mulw", "", "", "", "divw", "divuw", "remw", "remuw"].get(f as usize)?, R),
        _ => return None,
    };
    if name.is_empty() { None } else { Some(Inst { name, form }) }
}

fn put(out: &mut String, word: u32, pc: u64) {
    let Some(Inst { name, form }) = find(word) else {
        out.push('?');
        return;
    };
    let (rd, rs1, rs2) = (word >> 7 & 31, word >> 15 & 31, word >> 20 & 31);
    let signed = word as i32;
    let i = signed >> 20;
    let _ = match (name, form) {
        ("fence" | "ecall" | "ebreak", _) => write!(out, "{name}"),
        (_, Form::R) => write!(out, "{name} x{rd}, x{rs1}, x{rs2}"),
        (_, Form::I) => write!(out, "{name} x{rd}, x{rs1}, {i}"),
        (_, Form::Load) => write!(out, "{name} x{rd}, {i}(x{rs1})"),
        (_, Form::H) => write!(out, "{name} x{rd}, x{rs1}, {}", word >> 20 & 63),
        (_, Form::K) => write!(out, "{name} x{rd}, x{rs1}, {rs2}"),
        (_, Form::S) => write!(out, "{name} x{rs2}, {}(x{rs1})", (signed >> 25 << 5) | rd as i32),
        (_, Form::B) => {
            let offset = (signed >> 31 << 12) | ((word << 4 & 0x800) | (word >> 20 & 0x7e0) | (word >> 7 & 0x1e)) as i32;
            write!(out, "{name} x{rs1}, x{rs2}, {:016x}", pc.wrapping_add(offset as i64 as u64))
        }
        (_, Form::U) => write!(out, "{name} x{rd}, {:05x}", word >> 12),
        (_, Form::J) => {
            let offset = (signed >> 31 << 20) | ((word & 0xff000) | (word >> 9 & 0x800) | (word >> 20 & 0x7fe)) as i32;
            write!(out, "{name} x{rd}, {:016x}", pc.wrapping_add(offset as i64 as u64))
        }
    };
}

fn main() -> io::Result<()> {
    let bytes = fs::read(env::args().nth(1).expect("a file"))?;
    let mut text = String::new();
    let words = bytes.chunks_exact(4);
    let rest = words.remainder();
    for (index, four) in words.enumerate() {
        let word = u32::from_le_bytes(four.try_into().unwrap());
        let offset = 4 * index as u64;
        let _ = write!(text, "{offset:08x} {word:08x} ");
        put(&mut text, word, offset);
        text.push('\n');
    }
    if !rest.is_empty() {
        let _ = write!(text, "{:08x} rest ", bytes.len() - rest.len());
        for byte in rest {
            let _ = write!(text, "{byte:02x}");
        }
        text.push('\n');
    }
    io::stdout().write_all(text.as_bytes())
}
