//! One request by two implementations, and what differs.

use crate::library::{self, Lent, Library};
use crate::random::cases::{compiled_as_promised, counted_as_promised, Operation, Request};
use crate::reference::memory::{lent, pack, set_flag, unpack, MEMORY_BYTES};
use crate::reference::operations::{self, Code, Report, CODE_BYTES};
use crate::reference::profile;
use crate::reference::value::{Value, FAULTS};

/// The operations as they were written apart from the libraries.
struct Reference {
    compile: fn(&[u8], &mut [u8]) -> Report,
    check: fn(&[u8], usize) -> Report,
    run: fn(Code, &mut [u8], &[u8], Code, u32) -> Report,
    compile_and_run: fn(&[u8], &[u8], &mut [u8], [&mut [u8]; 2], u32) -> Report,
    compile_target: fn(&[u8], &mut [u8]) -> Report,
    evaluate: fn(Code, &[u8], u32) -> Report,
    store: fn(Value, &mut [u8], &[u8], Code, u32) -> Report,
}

const FULL: Reference = Reference {
    compile: operations::compile,
    check: operations::check,
    run: operations::run,
    compile_and_run: operations::compile_and_run,
    compile_target: operations::compile_target,
    evaluate: operations::evaluate,
    store: operations::store_value,
};

const INTEGERS: Reference = Reference {
    compile: profile::compile,
    check: profile::check,
    run: profile::run,
    compile_and_run: profile::compile_and_run,
    compile_target: profile::compile_target,
    evaluate: profile::evaluate,
    store: profile::store_value,
};

/// The report, and what the lent buffers hold after the call.
#[derive(PartialEq)]
struct Outcome {
    report: Report,
    memory: Vec<u8>,
    code: Vec<u8>,
    index_code: Vec<u8>,
}

/// The report that both give, or what differs.
pub fn compare(request: &Request) -> Result<Report, String> {
    let outcome = actual(request, &library::FULL)?;
    same(&expected(request, &FULL), &outcome)?;
    same_as_tree(request, &outcome)?;
    keeps_promises(request, &outcome)?;
    Ok(outcome.report)
}

/// In the profile without reals: the report, and whether it is the full box's too. Then both libraries must leave the same, byte for byte.
pub fn compare_profile(request: &Request) -> Result<(Report, bool), String> {
    let outcome = actual(request, &library::INTEGERS)?;
    let wanted = expected(request, &INTEGERS);
    same(&wanted, &outcome)?;
    keeps_promises(request, &outcome)?;
    let shared = wanted == expected(request, &FULL);
    if shared {
        same(&actual(request, &library::FULL)?, &outcome).map_err(|difference| format!("by the two libraries, {difference}"))?;
    }
    Ok((outcome.report, shared))
}

fn same(expected: &Outcome, actual: &Outcome) -> Result<(), String> {
    if actual.report != expected.report {
        return Err(format!("expected {:?}\ngot      {:?}", expected.report, actual.report));
    }
    same_bytes("memory", &expected.memory, &actual.memory)?;
    same_bytes("code buffer", &expected.code, &actual.code)?;
    same_bytes("index code buffer", &expected.index_code, &actual.index_code)
}

fn keeps_promises(request: &Request, Outcome { report, code, .. }: &Outcome) -> Result<(), String> {
    let compiled = request.operation == Operation::Compile && report.answer == 0;
    if compiled && !compiled_as_promised(&request.expr, code, report.count) {
        return Err("the compiled code is not accepted or too long".into());
    }
    if matches!(report.answer, 0 | 11..=14) && !counted_as_promised(request, report.count) {
        return Err("the count passes its bound".into());
    }
    Ok(())
}

fn expected(request: &Request, reference: &Reference) -> Outcome {
    let Request { target, expr, tick, .. } = request;
    let (mut memory, mut code, mut index_code) = (request.memory.clone(), request.code.clone(), request.index_code.clone());
    let given = |bytes, instructions| Code { bytes, instructions };
    let report = match request.operation {
        Operation::Compile => (reference.compile)(expr, &mut code),
        Operation::Check => (reference.check)(&code, request.instructions),
        Operation::Run => {
            let (value, index) = (given(&code, request.instructions), given(&index_code, request.index_instructions));
            (reference.run)(value, &mut memory, target, index, *tick)
        }
        Operation::CompileAndRun => (reference.compile_and_run)(target, expr, &mut memory, [&mut code, &mut index_code], *tick),
        Operation::CompileTarget => (reference.compile_target)(target, &mut index_code),
        Operation::Evaluate => (reference.evaluate)(given(&code, request.instructions), &memory, *tick),
        Operation::Store => {
            let value = Value::of_bits(request.value.0, request.value.1);
            (reference.store)(value, &mut memory, target, given(&index_code, request.index_instructions), *tick)
        }
    };
    Outcome { report, memory: lent(&memory), code, index_code }
}

fn actual(request: &Request, library: &Library) -> Result<Outcome, String> {
    let lend = |bytes: &[u8]| Lent::new(bytes, request.alignment);
    let (target, expr) = (lend(&request.target), lend(&request.expr));
    let (mut memory, mut code, mut index_code) = (lend(&lent(&request.memory)), lend(&request.code), lend(&request.index_code));
    let given = |lent| library::Code { lent, instructions: request.instructions };
    let index = |lent| library::Code { lent, instructions: request.index_instructions };
    let tick = request.tick;
    let report = match request.operation {
        Operation::Compile => library.compile(&expr, &mut code),
        Operation::Check => library.check(&code, request.instructions),
        Operation::Run => {
            let report = library.run(given(&code), &mut memory, &target, index(&index_code), tick);
            same_as_halves(request, library, report, memory.content())?;
            report
        }
        Operation::CompileAndRun => library.compile_and_run(&target, &expr, &mut memory, [&mut code, &mut index_code], tick),
        Operation::CompileTarget => library.compile_target(&target, &mut index_code),
        Operation::Evaluate => library.evaluate(given(&code), &memory, tick),
        Operation::Store => library.store(request.value, &mut memory, &target, index(&index_code), tick),
    };
    same_bytes("target", &request.target, target.content())?;
    same_bytes("expression", &request.expr, expr.content())?;
    if ![&target, &expr, &memory, &code, &index_code].iter().all(|lent| lent.guards_stand()) {
        return Err("bytes beside a lent buffer were written".into());
    }
    let [memory, code, index_code] = [memory, code, index_code].map(|lent| lent.content().to_vec());
    Ok(Outcome { report, memory, code, index_code })
}

// A run that is not refused is its two halves in turn, with the flag where the first is at fault.
fn same_as_halves(request: &Request, library: &Library, run: Report, after: &[u8]) -> Result<(), String> {
    if !matches!(run.answer, 0 | 11..=14) {
        return Ok(());
    }
    let lend = |bytes: &[u8]| Lent::new(bytes, request.alignment);
    let before = lent(&request.memory);
    let (code, mut memory) = (lend(&request.code), lend(&before));
    let value = library::Code { lent: &code, instructions: request.instructions };
    let first = library.evaluate(value, &memory, request.tick);
    same_bytes("memory, after the value", &before, memory.content())?;
    let both = match first.answer {
        0 => {
            let (target, index_code) = (lend(&request.target), lend(&request.index_code));
            let index = library::Code { lent: &index_code, instructions: request.index_instructions };
            let second = library.store((first.kind, first.bits), &mut memory, &target, index, request.tick);
            Report { count: first.count + second.count, ..second }
        }
        _ => first,
    };
    if both != run {
        return Err(format!("the halves give {both:?}\nthe run         {run:?}"));
    }
    let mut expected = unpack(memory.content());
    if first.answer != 0 {
        set_flag(&mut expected, FAULTS[first.answer as usize - 11]);
    }
    same_bytes("memory, by the halves,", &pack(&expected), after)
}

// The value of the tree against the value of the code. The tree counts no instructions.
fn same_as_tree(request: &Request, actual: &Outcome) -> Result<(), String> {
    let large = |buffer: &[u8]| buffer.len() >= CODE_BYTES;
    let sizes = request.memory.len() == MEMORY_BYTES && large(&request.code) && large(&request.index_code);
    if request.operation != Operation::CompileAndRun || !sizes {
        return Ok(());
    }
    let mut memory = request.memory.clone();
    let walked = operations::walk(&request.target, &request.expr, &mut memory, request.tick);
    let report = Report { count: 0, ..actual.report };
    if walked != report {
        return Err(format!("the tree gives {walked:?}\nthe code      {report:?}"));
    }
    same_bytes("memory, by the tree,", &lent(&memory), &actual.memory)
}

fn same_bytes(what: &str, expected: &[u8], actual: &[u8]) -> Result<(), String> {
    if expected == actual {
        return Ok(());
    }
    let at = expected.iter().zip(actual).position(|(e, a)| e != a).unwrap_or(0);
    Err(format!("{what} differs at byte {at}: expected {}, got {}", expected[at], actual[at]))
}

fn text(bytes: &[u8]) -> String {
    format!("{} bytes \"{}\"", bytes.len(), bytes.escape_ascii())
}

fn hex(bytes: &[u8]) -> String {
    bytes.iter().map(|b| format!("{b:02x}")).collect()
}

/// The request in full, one input a line. An operation looks only at those that it has.
pub fn show(request: &Request) -> String {
    let Request { operation, expr, target, memory, code, index_code, .. } = request;
    let mut lines = format!("{operation:?}\n");
    let mut line = |part: String| lines += &(part + "\n");
    line(format!("target {}", text(target)));
    line(format!("expr {}", text(expr)));
    line(format!("memory {} bytes {}", memory.len(), hex(memory)));
    line(format!("value {:?}, tick {:08x}", request.value, request.tick));
    // The codes of a compilation are buffers of one byte.
    if matches!(operation, Operation::Compile | Operation::CompileAndRun | Operation::CompileTarget) {
        line(format!("code buffers {} and {} bytes", code.len(), index_code.len()));
    } else {
        line(format!("{} instructions, code {} bytes {}", request.instructions, code.len(), hex(code)));
        line(format!("{} index instructions, code {} bytes {}", request.index_instructions, index_code.len(), hex(index_code)));
    }
    lines
}
