//! Descriptors, ordinary objects, functions and proxies of ECMA-262 (2024) over a store of 32 live objects, written plainly with Vec, Option and Result.
//!
//! The library is held against this. It follows docs/REFERENCE.md and the standard's numbered steps and shares no code with the
//! library or with the crate's own encoding.
#![allow(dead_code)]

pub mod descriptor;
pub mod integrity;
pub mod methods;
pub mod property_page;
pub mod record;
pub mod step;
pub mod text;
pub mod value;
pub mod world;
