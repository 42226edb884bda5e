//! The rival: the same operations in plain Rust, written from the requirements and not from the proved code, without unsafe code
//! and with its bounds checks on. Its instructions are its own: one for each operation and its kinds, found by the compiler once, as
//! many as the library's. Check and run allocate nothing, and the run does not decide again what the check decided.

#![forbid(unsafe_code)]

mod cards;
mod check;
mod emit;
mod image;
mod machine;
pub mod op;
mod opcode;
mod operations;
mod reader;
mod reads;
mod tokens;
mod totals;
mod values;

pub use cards::read as cards_read;
pub use emit::Code;
pub use operations::{check, compile, compile_and_run, compile_target, run};
pub use reads::cells;
pub use values::Kind;
