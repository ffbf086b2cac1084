//! What the tests share. Each test file uses a part of it.
#![allow(dead_code)]

pub mod buffers;
pub mod calendar;
pub mod calls;
pub mod cases;
pub mod coverage;
pub mod documents;
pub mod examples;
pub mod expressions;
pub mod generator;
pub mod laws;
pub mod marks;
pub mod masks;
pub mod numbers;
pub mod operations;
pub mod patterns;
pub mod programs;
pub mod progress;
pub mod script;
pub mod vectors;
