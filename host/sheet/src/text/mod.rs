//! A sheet as text: one record a line, letters by name. docs/TEXT.md has the grammar.

pub mod fault;
pub mod instead;
pub mod line;
pub mod names;
pub mod parse;
pub mod print;
pub mod width;
