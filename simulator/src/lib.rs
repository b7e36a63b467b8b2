//! A plain simulator of the bench, the program and the scripts, written from
//! the documents alone.

pub mod hex;
pub mod model;
pub mod program;
pub mod refusal;
pub mod script;
pub mod table_file;
