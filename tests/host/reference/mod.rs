//! A second implementation of the requirements. It shares nothing with the proved one: literals by exact fractions, values on the
//! machine's own floats, the grammar by a parser with two stacks.

pub mod cards;
pub mod check;
pub mod code;
pub mod compile;
pub mod format;
pub mod grammar;
pub mod listing;
pub mod literal;
pub mod machine;
pub mod memory;
pub mod operations;
pub mod operators;
pub mod profile;
pub mod program;
pub mod replay;
pub mod salvage;
pub mod reads;
pub mod target;
pub mod text;
pub mod totals;
pub mod tree;
pub mod value;
