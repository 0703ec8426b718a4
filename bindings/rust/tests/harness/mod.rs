//! The library beside the plain implementation: the same call to both, and everything that it leaves compared.
#![allow(dead_code)]

pub mod entries;
pub mod generator;
pub mod layout;
pub mod pair;
pub mod random;
pub mod text;
