//! A second implementation of documents 01 and 02, written from the documents alone and sharing nothing with the proved code:
//! naive, in 128 bits, so that no sum or product of 64-bit inputs can overflow. The tests compare the proved code with it.

pub mod book;
pub mod ceiling;
pub mod checks;
pub mod decision;
#[cfg(test)]
mod example;
pub mod http;
pub mod plan;
pub mod plans;
pub mod table;
pub mod text;
