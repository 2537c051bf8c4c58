//! What the command writes: rows as a table or as JSON, and files that are whole or not there.
pub mod json;
pub mod sheet;
pub mod table;
pub mod whole;
