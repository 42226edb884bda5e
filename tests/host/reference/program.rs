//! The program of the requirements: lines of key=value in, answer, place and the cell stored to out.

use super::memory::{cell_name, offset, read, store, Bank, BANKS, MEMORY_BYTES};
use super::operations::{Report, CODE_BYTES};
use super::value::Value;

/// An implementation of compile-and-run: target, expression, memory, the two code buffers, tick.
pub type Operation = fn(&[u8], &[u8], &mut [u8], [&mut [u8]; 2], u32) -> Report;

pub struct Input {
    pub memory: Vec<u8>,
    pub target: Vec<u8>,
    pub expr: Vec<u8>,
}

/// Reads the lines of one case. Lines of any other form are skipped.
pub fn read_input(lines: &[u8]) -> Input {
    let mut input = Input { memory: vec![0; MEMORY_BYTES], target: Vec::new(), expr: Vec::new() };
    for line in lines.split(|b| *b == b'\n') {
        let Some(equals) = line.iter().position(|b| *b == b'=') else { continue };
        let (key, value) = (&line[..equals], &line[equals + 1..]);
        match key {
            b"target" => input.target = value.to_vec(),
            b"expr" => input.expr = value.to_vec(),
            // A line of any other form is skipped.
            _ => _ = set_cell(&mut input.memory, key, value),
        }
    }
    input
}

/// Sets the cell that a key names; nothing where the key or the value has another form.
pub fn set_cell(memory: &mut [u8], key: &[u8], value: &[u8]) -> Option<()> {
    let (bank, Some(element)) = cell_name(key)? else { return None };
    let text = std::str::from_utf8(value).ok()?;
    let value = match bank {
        Bank::R => pattern(text),
        Bank::X | Bank::C => integer(text, 0, 1),
        Bank::V => integer(text, 0, 65535),
        Bank::N => integer(text, -32768, 32767),
        Bank::D => integer(text, i32::MIN, i32::MAX),
    };
    match value? {
        // A pattern is written as it stands: it may be an infinity or a NaN, which no store gives.
        Value::Real(r) => {
            let at = offset(bank, element);
            memory[at..at + 4].copy_from_slice(&r.to_bits().to_le_bytes());
        }
        value => store(memory, (bank, element), value).expect("the value is in range"),
    }
    Some(())
}

// Exactly the form in which integers are printed, so no plus sign and no leading zero.
fn integer(text: &str, least: i32, greatest: i32) -> Option<Value> {
    let i: i32 = text.parse().ok()?;
    (i.to_string() == text && least <= i && i <= greatest).then_some(Value::Int(i))
}

fn pattern(text: &str) -> Option<Value> {
    pattern_bits(text).map(|bits| Value::Real(f32::from_bits(bits)))
}

/// `0x` and eight hexadecimal digits of either case.
pub fn pattern_bits(text: &str) -> Option<u32> {
    let digits = text.strip_prefix("0x")?;
    if digits.len() != 8 || !digits.bytes().all(|b| b.is_ascii_hexdigit()) {
        return None;
    }
    u32::from_str_radix(digits, 16).ok()
}

/// What the program prints for one case, at any tick.
pub fn output(mut input: Input, operation: Operation, tick: u32) -> String {
    let (mut code, mut index_code) = (vec![0; CODE_BYTES], vec![0; CODE_BYTES]);
    let report = operation(&input.target, &input.expr, &mut input.memory, [&mut code, &mut index_code], tick);
    printed(&report, &input.memory)
}

/// Answer and place, and the cell stored to.
pub fn printed(report: &Report, memory: &[u8]) -> String {
    let mut lines = format!("answer={}\nplace={}\n", report.answer, report.place);
    if report.answer == 0 {
        lines += &cell_line(memory, BANKS[report.bank as usize], report.element as usize);
    }
    lines
}

fn cell_line(memory: &[u8], bank: Bank, element: usize) -> String {
    let name = format!("{}{element}", char::from(bank.letter()));
    match read(memory, bank, element) {
        Ok(Value::Int(i)) => format!("{name}={i}\n"),
        Ok(Value::Real(r)) => format!("{name}=0x{:08X}\n", r.to_bits()),
        Err(_) => panic!("a store left an infinity or a NaN"),
    }
}
