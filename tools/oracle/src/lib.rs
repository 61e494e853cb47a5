//! The oracle's parts: three forms of the Rust, docs/SCOPE.md's entry points, rows and comparisons.
//! Names keep the Rust's and the documents' letters, so upper case stands in snake case too.
#![allow(non_snake_case)]

pub mod compare;
pub mod counts;
pub mod direct;
pub mod entries;
pub mod exchange;
pub mod forms;
pub mod lines;
pub mod make;
pub mod measure;
pub mod num;
pub mod ranges;
pub mod raw;
pub mod row;
pub mod rules;
pub mod searches;
pub mod store;
