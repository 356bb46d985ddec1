//! The sheets that are timed.

/// Nearly as many as a sheet may have.
const RECORDS: usize = 510;

/// A row of the grid has so many cells.
const CELLS: usize = 7;

/// Sizes that look like a plate's, the same each time.
fn control(n: usize) -> String {
    let (width, height) = (288 + n * 131 % 1_153, 288 + n * 197 % 865);
    format!("W{width:>8}{height:>8}\n")
}

fn heading() -> String {
    let fields = [0, 0, 1, 0, 0, 0, 0, 0, 18_432, 9_216, 288, 144];
    let fields = fields.map(|n: i32| format!("{n:>8}"));
    format!("H{}\n", fields.concat())
}

pub fn strip() -> Vec<u8> {
    let controls = (1..RECORDS).map(control);
    [heading()]
        .into_iter()
        .chain(controls)
        .collect::<String>()
        .into_bytes()
}

pub fn grid() -> Vec<u8> {
    let options = format!("G{:>8}{:>8}{:>32}\n", 576, 432, 0);
    let steps = (2..RECORDS).map(|n| match (n - 2) % (CELLS + 1) {
        CELLS => "E\n".into(),
        _ => control(n),
    });
    let lines = [heading(), options].into_iter().chain(steps);
    lines.collect::<String>().into_bytes()
}

/// The same with M after H: the sizes are hundredths of a millimetre.
pub fn with_unit(sheet: &[u8]) -> Vec<u8> {
    let (heading, rest) = sheet.split_at(heading().len());
    [heading, b"M\n", rest].concat()
}

/// The same with a fault in the last record: only the text is read.
pub fn faulty(sheet: &[u8]) -> Vec<u8> {
    let mut text = sheet.to_vec();
    let before_the_last_lf = text.len() - 2;
    text[before_the_last_lf] = b'?';
    text
}
