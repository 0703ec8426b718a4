//! The rows of a text of steps from the standard input, by the plain implementation of the tests alone: what the library's rows are held against.
#[path = "../tests/plain/mod.rs"]
mod plain;

use std::io::{Read, Write};

fn main() -> std::io::Result<()> {
    let mut input = Vec::new();
    std::io::stdin().read_to_end(&mut input)?;
    // 2,048 nested calls
    let work = std::thread::Builder::new().stack_size(64 << 20).spawn(move || plain::text::run_text(&input))?;
    let rows = work.join().expect("the rows");
    std::io::stdout().write_all(&rows)
}
