//! Writes the drawing of the sheet on standard input, an SVG: an embedding of crates/embed in Rust.
use std::io::{self, Read, Write};

// As include/platelist.h has them.
const DRAWING: usize = 300_000;

extern "C" {
    fn platelist_draw(text: *const u8, length: usize, out: *mut u8) -> usize;
}

fn drawing(text: &[u8]) -> Vec<u8> {
    let mut out = vec![0; DRAWING];
    let length = unsafe { platelist_draw(text.as_ptr(), text.len(), out.as_mut_ptr()) };
    out.truncate(length);
    out
}

fn main() -> io::Result<()> {
    let mut text = Vec::new();
    io::stdin().read_to_end(&mut text)?;
    io::stdout().write_all(&drawing(&text))
}
