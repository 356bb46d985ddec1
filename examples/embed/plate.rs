//! Reads a sheet on standard input and says where a map editor draws its controls, in points: an
//! embedding of crates/embed in Rust. After an empty line comes the list, as program platelist prints it.

use std::io::{self, Read, Write};

// As include/platelist.h has them.
const TICKS_PER_POINT: f64 = 32.0;
const PLACES: usize = 4096;

const REFUSALS: [&str; 10] = [
    "accepted",
    "it is malformed, out of its place or out of range",
    "there is more after the 512th",
    "there is no room for the rectangles",
    "a length is not finite",
    "a length is above 65536 points",
    "a size is negative",
    "a gap in a grid, or a grid from right to left or upward",
    "the grid is full",
    "it would leave the range of lengths",
];

extern "C" {
    fn platelist_settle(
        text: *const u8,
        length: usize,
        places: *mut i32,
        room: usize,
        plate: &mut [i32; 4],
        widths: &mut [f32; 32],
        cols: &mut usize,
        heights: &mut [f32; 128],
        rows: &mut usize,
        record: &mut usize,
    ) -> u8;
    fn platelist_list(text: *const u8, length: usize, out: *mut u8, room: usize) -> usize;
}

/// Left, top, right, bottom, in ticks.
type Edges = [i32; 4];

struct Plate {
    /// A frame and a control's own rectangle for each W, one after the other.
    places: Vec<i32>,
    edges: Edges,
    widths: Vec<f32>,
    heights: Vec<f32>,
}

struct Refusal {
    number: u8,
    record: usize,
}

// Each call reads and writes no more than what it is lent, and returns: that is proved, so the two
// below are sound.

fn settle(text: &[u8]) -> Result<Plate, Refusal> {
    let mut places = vec![0; PLACES];
    let (mut edges, mut widths, mut heights) = ([0; 4], [0.0; 32], [0.0; 128]);
    let (mut cols, mut rows, mut record) = (0, 0, 0);
    let number = unsafe {
        platelist_settle(
            text.as_ptr(),
            text.len(),
            places.as_mut_ptr(),
            places.len(),
            &mut edges,
            &mut widths,
            &mut cols,
            &mut heights,
            &mut rows,
            &mut record,
        )
    };
    if number != 0 {
        return Err(Refusal { number, record });
    }
    Ok(Plate {
        places,
        edges,
        widths: widths[..cols].to_vec(),
        heights: heights[..rows].to_vec(),
    })
}

fn list(text: &[u8]) -> Vec<u8> {
    let (from, length) = (text.as_ptr(), text.len());
    let room = unsafe { platelist_list(from, length, std::ptr::null_mut(), 0) };
    let mut list = vec![0; room];
    unsafe { platelist_list(from, length, list.as_mut_ptr(), room) };
    list
}

fn size(name: &str, [left, top, right, bottom]: Edges) -> String {
    let points = |ticks: i32| f64::from(ticks) / TICKS_PER_POINT;
    let (across, down) = (points(right - left), points(bottom - top));
    format!(
        "{name} at {} {}, {across} by {down} points\n",
        points(left),
        points(top)
    )
}

fn layout(plate: &Plate, controls: usize) -> String {
    let mut said = String::new();
    for cell in plate.places.chunks_exact(8).take(controls) {
        said += &size("control", [cell[4], cell[5], cell[6], cell[7]]);
    }
    said += &size("plate", plate.edges);
    for (i, width) in plate.widths.iter().enumerate() {
        said += &format!("column {i}: {width} points\n");
    }
    for (i, height) in plate.heights.iter().enumerate() {
        said += &format!("row {i}: {height} points\n");
    }
    said
}

fn main() -> io::Result<()> {
    let mut text = Vec::new();
    io::stdin().read_to_end(&mut text)?;
    // A record is a line, so the lines that begin with W are the controls.
    let controls = text.split(|&b| b == b'\n').filter(|line| line.first() == Some(&b'W'));
    let said = match settle(&text) {
        Ok(plate) => layout(&plate, controls.count()),
        Err(Refusal { number, record }) => {
            format!("refused at record {record}: {}\n", REFUSALS[usize::from(number)])
        }
    };
    let mut out = io::stdout();
    out.write_all(said.as_bytes())?;
    out.write_all(b"\n")?;
    out.write_all(&list(&text))
}
