//! What the tests share. Each of them uses a part of it.
#![allow(dead_code)]

pub mod lent;
pub mod plans;
