//! crates/code_cases: code that the check accepts, code that breaks one of its rules each, and how a run of either ends.

use super::shown_end;
use crate::reference::check::check;
use crate::reference::code::Instruction::{self, *};
use crate::reference::code::{
    bytes, encode, BINARY, INSTRUCTION_BYTES, INSTRUCTION_LIMIT, LOAD, LOAD_INDEXED, MATCH, PUSH_REAL, SINCE, TICK, TOTAL, UNARY,
};
use crate::reference::machine::run;
use crate::reference::memory::{offset, Bank, BANKS, MEMORY_BYTES};
use crate::reference::operators::Binary::*;
use crate::reference::operators::Unary as Prefix;
use crate::reference::totals::{Matching, Range, Total as Of};
use crate::reference::value::{Kind, Value};

// The program runs every code at this tick: below zero as an integer, and far from the least one.
const TICK_OF_RUNS: u32 = 0x8000_0005;

#[derive(Clone)]
struct Case {
    name: String,
    code: Vec<u8>,
    instructions: usize,
}

/// What the program reads, and what it prints.
pub fn files() -> (String, String) {
    let (mut input, mut printed) = (String::new(), String::new());
    let memory = image();
    for Case { name, code, instructions } in [accepted(), faults(), unknown(), refused(), totals(), ranges()].concat() {
        let digits: String = code.iter().map(|byte| format!("{byte:02X}")).collect();
        input += &format!("{name} {instructions} {digits}\n");
        let verdict = match check(&code, instructions) {
            Some(Kind::Int) => "i",
            Some(Kind::Real) => "r",
            None => "15",
        };
        if instructions > INSTRUCTION_LIMIT {
            // The machine takes no more.
            printed += &format!("{name} {verdict} -\n");
            continue;
        }
        let (end, count) = run(&code, instructions, &memory, TICK_OF_RUNS);
        printed += &format!("{name} {verdict} {} {count}\n", shown_end(end));
    }
    (input, printed)
}

const NAN: u32 = 0x7FC0_0000;
const MINUS_ZERO: u32 = 0x8000_0000;
// 2 ^ 127: two of them add up to an infinity.
const LARGE: u32 = 0x7F00_0000;

// The image of the program; every other cell is 0.
fn image() -> Vec<u8> {
    let mut memory = vec![0; MEMORY_BYTES];
    let mut put = |bank, element, bytes: &[u8]| {
        let at = offset(bank, element);
        memory[at..at + bytes.len()].copy_from_slice(bytes);
    };
    for (element, integer) in [(0, 5), (1, -1), (4, i32::MAX), (5, 1), (6, -2)] {
        put(Bank::D, element, &integer.to_le_bytes());
    }
    let singles = [(0, 1.5f32.to_bits()), (1, NAN), (2, MINUS_ZERO), (4, MINUS_ZERO), (10, LARGE), (11, LARGE), (12, NAN)];
    for (element, pattern) in singles {
        put(Bank::R, element, &pattern.to_le_bytes());
    }
    put(Bank::X, 0, &[1]);
    put(Bank::X, 3, &[255]);
    put(Bank::C, 63, &[2]);
    put(Bank::V, 255, &[255, 255]);
    put(Bank::N, 0, &[255, 255]);
    memory
}

type Eight = [u8; INSTRUCTION_BYTES];

fn raw(name: &str, code: &[Eight]) -> Case {
    Case { name: name.into(), code: code.concat(), instructions: code.len() }
}

fn case(name: &str, code: &[Instruction]) -> Case {
    let code: Vec<Eight> = code.iter().map(|instruction| encode(*instruction)).collect();
    raw(name, &code)
}

fn int(i: i32) -> Instruction {
    Push(Value::Int(i))
}

fn real(r: f32) -> Instruction {
    Push(Value::Real(r))
}

// So many values held, then added up.
fn pile(values: usize) -> Vec<Instruction> {
    [vec![int(1); values], vec![Binary(Plus); values - 1]].concat()
}

fn negations(number: usize) -> Vec<Instruction> {
    [vec![int(1)], vec![Unary(Prefix::Negate); number]].concat()
}

fn accepted() -> Vec<Case> {
    let choice = |condition| [int(condition), JumpIf(false, 2), int(5), Jump(1), int(6)];
    vec![
        case("one_push", &[int(7)]),
        case("sum", &[Load(Bank::D, 0), int(2), Binary(Plus)]),
        case("mixed_kinds", &[Load(Bank::D, 0), Load(Bank::R, 0), Binary(Times)]),
        case("indexed_by_a_real", &[real(1.9), LoadIndexed(Bank::D)]),
        case("choice_taken", &choice(1)),
        case("choice_not_taken", &choice(0)),
        case("jump_to_the_end", &[int(3), Jump(0)]),
        case("unreached_is_free", &[int(3), Jump(1), Binary(Plus)]),
        case("both_ways_the_same", &[real(0.5), JumpIf(true, 2), int(1), Jump(1), int(2)]),
        case("held_128", &pile(128)),
        case("long_2048", &negations(2047)),
        case("tick", &[Tick]),
        case("since", &[int(5), Since]),
        case("since_the_tick", &[Tick, Since]),
        case("since_the_greatest", &[int(i32::MAX), Since]),
        case("since_the_least", &[int(i32::MIN), Since]),
    ]
}

fn faults() -> Vec<Case> {
    vec![
        case("divided_by_zero", &[int(1), int(0), Binary(Divide), int(9), Binary(Plus)]),
        case("overflow", &[int(i32::MAX), int(1), Binary(Plus)]),
        case("shift_of_32", &[int(1), int(32), Binary(ShiftLeft)]),
        case("index_below", &[int(-1), LoadIndexed(Bank::V)]),
        case("index_beyond", &[int(64), LoadIndexed(Bank::X)]),
        case("nan_read", &[Load(Bank::R, 1)]),
        case("index_beyond_32_bits", &[real(3e9), LoadIndexed(Bank::D)]),
        case("tick_less_the_greatest", &[Tick, int(i32::MAX), Binary(Minus)]),
    ]
}

// Not so many instructions, or one that is unknown.
fn unknown() -> Vec<Case> {
    let one = encode(int(1));
    let with_one_at = |mut eight: Eight, byte: usize| {
        eight[byte] = 1;
        eight
    };
    vec![
        Case { instructions: 0, ..case("nothing", &[int(1)]) },
        Case { instructions: 2, ..case("beyond_the_buffer", &[int(1)]) },
        case("long_2049", &negations(2048)),
        raw("opcode_0", &[bytes(0, 0, 0)]),
        raw("opcode_8", &[bytes(8, 0, 0)]),
        raw("opcode_224", &[one, one, bytes(224, 0, 0)]),
        raw("unary_operator_8", &[one, bytes(UNARY, 8, 0)]),
        raw("binary_operator_20", &[one, one, bytes(BINARY, 20, 0)]),
        raw("bank_6", &[bytes(LOAD, 6, 0)]),
        raw("bank_6_indexed", &[one, bytes(LOAD_INDEXED, 6, 0)]),
        raw("element_64_of_x", &[bytes(LOAD, Bank::X as u8, 64)]),
        raw("element_256_of_d", &[bytes(LOAD, Bank::D as u8, 256)]),
        raw("infinity_pushed", &[bytes(PUSH_REAL, 0, 0x7F80_0000)]),
        raw("nan_pushed", &[bytes(PUSH_REAL, 0, 0x7FC0_0001)]),
        raw("byte_1_not_zero", &[with_one_at(one, 1)]),
        raw("byte_2_not_zero", &[with_one_at(one, 2)]),
        raw("byte_3_not_zero", &[with_one_at(one, 3)]),
        raw("byte_1_of_tick", &[with_one_at(encode(Tick), 1)]),
        raw("byte_3_of_since", &[one, with_one_at(encode(Since), 3)]),
        raw("word_of_tick", &[bytes(TICK, 0, 1)]),
        raw("word_of_since", &[one, bytes(SINCE, 0, 0x8000_0000)]),
        raw("word_of_an_operator", &[one, bytes(UNARY, Prefix::Negate as u8, 1)]),
        raw("unknown_but_unreached", &[encode(int(3)), encode(Jump(1)), bytes(0, 0, 0)]),
    ]
}

// Known instructions that do not fit together.
fn refused() -> Vec<Case> {
    let kinds_differ = [int(1), JumpIf(false, 2), int(5), Jump(1), real(6.0)];
    vec![
        case("jump_past_the_end", &[int(3), Jump(1)]),
        case("jump_past_the_end_unreached", &[int(3), Jump(1), Jump(1)]),
        case("jump_far", &[int(3), Jump(u32::MAX)]),
        case("heights_differ", &[int(1), JumpIf(true, 1), int(2), int(3)]),
        case("kinds_differ", &kinds_differ),
        case("kinds_below_differ", &[&kinds_differ[..], &[int(1), Binary(Plus)]].concat()),
        case("held_129", &pile(129)),
        case("short_of_one", &[Unary(Prefix::Negate)]),
        case("short_of_two", &[int(1), Binary(Plus)]),
        case("jump_on_nothing", &[JumpIf(true, 0)]),
        case("since_nothing", &[Since]),
        case("since_a_real", &[real(1.0), Since]),
        case("real_complemented", &[real(1.0), Unary(Prefix::Invert)]),
        case("real_masked", &[real(1.0), int(1), Binary(And)]),
        case("real_exponent", &[int(2), real(2.0), Binary(Power)]),
        case("two_at_the_end", &[int(1), int(2)]),
        case("none_at_the_end", &[int(1), JumpIf(true, 0)]),
    ]
}

// Runs over the image's cells: results, faults, and the cells counted.
fn totals() -> Vec<Case> {
    let range = |bank, first, count| Range { bank, first, count };
    let total = |name, op, bank, first, count| case(name, &[Total(op, range(bank, first, count))]);
    let matching = |name, value, op, test, bank, first, count| case(name, &[value, Match(op, test, range(bank, first, count))]);
    let (bank_r, bank_d) = (Bank::R, Bank::D);
    vec![
        total("sum_of_one", Of::Sum, bank_d, 0, 1),
        total("sum_of_two", Of::Sum, bank_d, 0, 2),
        total("sum_of_minus_zero", Of::Sum, bank_r, 2, 1),
        total("average_of_minus_zero", Of::Average, bank_r, 4, 1),
        total("greatest_of_minus_zero_and_zero", Of::Greatest, bank_r, 2, 2),
        total("greatest_of_zero_and_minus_zero", Of::Greatest, bank_r, 3, 2),
        total("least_of_minus_zero_and_zero", Of::Least, bank_r, 2, 2),
        total("least_of_zero_and_minus_zero", Of::Least, bank_r, 3, 2),
        total("sum_leaves_32_bits", Of::Sum, bank_d, 4, 3),
        total("sum_leaves_32_bits_later", Of::Sum, bank_d, 0, 256),
        total("sum_goes_to_the_end", Of::Sum, bank_d, 4, 1),
        total("greatest_needs_no_sum", Of::Greatest, bank_d, 4, 3),
        total("average_of_integers", Of::Average, bank_d, 4, 3),
        total("infinite_before_nan", Of::Sum, bank_r, 10, 3),
        total("average_infinite_before_nan", Of::Average, bank_r, 10, 3),
        total("nan_under_greatest", Of::Greatest, bank_r, 10, 3),
        total("nan_under_least", Of::Least, bank_r, 9, 256 - 9),
        total("greatest_of_large", Of::Greatest, bank_r, 10, 2),
        total("nan_first", Of::Sum, bank_r, 1, 3),
        total("inputs", Of::Sum, Bank::X, 0, 64),
        total("input_average", Of::Average, Bank::X, 0, 4),
        total("all_of_v", Of::Sum, Bank::V, 0, 256),
        total("last_of_v", Of::Greatest, Bank::V, 255, 1),
        total("least_of_n", Of::Least, Bank::N, 0, 256),
        total("average_of_n", Of::Average, Bank::N, 0, 256),
        matching("count_equal", int(1), Matching::Count, Equal, Bank::C, 0, 64),
        matching("count_not_equal", int(1), Matching::Count, NotEqual, Bank::C, 0, 64),
        matching("count_of_all", int(0), Matching::Count, GreaterEqual, Bank::V, 0, 256),
        matching("count_strict", int(5), Matching::Count, Greater, bank_d, 0, 3),
        matching("count_not_strict", int(5), Matching::Count, GreaterEqual, bank_d, 0, 3),
        matching("count_cell_on_the_left", int(0), Matching::Count, Less, bank_d, 0, 3),
        matching("count_by_a_real", real(0.5), Matching::Count, LessEqual, bank_d, 0, 3),
        matching("count_zeros", real(-0.0), Matching::Count, Equal, bank_r, 2, 3),
        matching("count_stops_at_nan", int(9), Matching::Count, Less, bank_r, 10, 3),
        matching("sum_where_above", int(0), Matching::Sum, Greater, bank_d, 0, 3),
        matching("sum_where_not_above", int(0), Matching::Sum, LessEqual, bank_d, 0, 3),
        matching("sum_of_no_integer", int(9), Matching::Sum, Greater, bank_d, 0, 3),
        matching("sum_of_no_real", int(9), Matching::Sum, Greater, bank_r, 2, 3),
        matching("sum_where_leaves_32_bits", int(0), Matching::Sum, Greater, bank_d, 3, 4),
        matching("sum_where_keeps_32_bits", int(1), Matching::Sum, NotEqual, bank_d, 4, 3),
        matching("sum_where_infinite", int(0), Matching::Sum, Greater, bank_r, 8, 5),
        matching("sum_where_nan_does_not_match", int(0), Matching::Sum, Less, bank_r, 10, 3),
        case("total_after_a_fault", &[int(1), int(0), Binary(Divide), Match(Matching::Count, Equal, range(bank_d, 0, 9))]),
        case("count_is_an_integer", &[int(1), Match(Matching::Count, Equal, range(bank_r, 2, 3)), Unary(Prefix::Invert)]),
        case("sum_is_a_real", &[int(1), Match(Matching::Sum, Equal, range(bank_r, 2, 3)), Unary(Prefix::Invert)]),
        case("average_is_a_real", &[Total(Of::Average, range(bank_d, 0, 1)), Since]),
        case("count_of_nothing", &[Match(Matching::Count, Equal, range(bank_d, 0, 1))]),
    ]
}

fn range_word(bank: u32, first: usize, count: usize) -> u32 {
    bank | (first as u32) << 8 | (count as u32) << 16
}

// Ranges within each bank and one past it, counts of none and too many, and numbers that no bank or operator has.
fn ranges() -> Vec<Case> {
    let of_bank = |(number, bank): (u32, Bank)| {
        let cells = bank.cells();
        let spans = [(0, 0), (0, cells), (0, cells + 1), (cells - 1, 1), (cells - 1, 2), (1, cells)];
        spans.map(|(first, count)| {
            let name = format!("{count}_from_{}{first}", char::from(bank.letter()));
            raw(&name, &[bytes(TOTAL, Of::Greatest as u8, range_word(number, first, count))])
        })
    };
    let mut all: Vec<Case> = (0..).zip(BANKS).flat_map(of_bank).collect();
    let one = encode(int(1));
    let good = range_word(Bank::V as u32, 0, 1);
    all.extend([
        raw("1_from_X64", &[bytes(TOTAL, 0, range_word(Bank::X as u32, 64, 1))]),
        raw("1_from_C255", &[bytes(TOTAL, 0, range_word(Bank::C as u32, 255, 1))]),
        raw("range_of_bank_6", &[bytes(TOTAL, 0, range_word(6, 0, 1))]),
        raw("range_of_65535", &[bytes(TOTAL, 0, range_word(Bank::V as u32, 0, 65535))]),
        raw("total_operator_4", &[bytes(TOTAL, 4, good)]),
        raw("match_operator_11", &[one, bytes(MATCH, 11, good)]),
        raw("match_operator_12", &[one, bytes(MATCH, 12, good)]),
        raw("match_of_no_cell", &[one, bytes(MATCH, 0, range_word(Bank::V as u32, 0, 0))]),
        raw("match_of_257", &[one, bytes(MATCH, 0, range_word(Bank::V as u32, 0, 257))]),
        raw("match_past_x", &[one, bytes(MATCH, 6, range_word(Bank::X as u32, 63, 2))]),
        raw("match_word_0", &[one, bytes(MATCH, 0, 0)]),
    ]);
    all
}
