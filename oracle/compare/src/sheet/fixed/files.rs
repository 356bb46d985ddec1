//! The files of the fixed list, and those beside the example sheets.

use std::fs;
use std::io;
use std::path::{Path, PathBuf};

use super::themes::{Sheet, themes};
use crate::sheet::listing::list;
use crate::sheet::reference::lines;

/// A file as it has to be, and how many sheets it answers.
pub struct File {
    pub path: PathBuf,
    pub bytes: Vec<u8>,
    pub sheets: usize,
}

fn folder(name: &str) -> PathBuf {
    Path::new(env!("CARGO_MANIFEST_DIR"))
        .join("../..")
        .join(name)
}

/// The files of a folder that have this ending, in order.
fn ending_in(dir: &Path, ending: &str) -> io::Result<Vec<PathBuf>> {
    let mut paths = vec![];
    for entry in fs::read_dir(dir)? {
        let path = entry?.path();
        if path.extension().is_some_and(|it| it == ending) {
            paths.push(path);
        }
    }
    paths.sort();
    Ok(paths)
}

/// A line for the name, then the sheet's lines and the list's, each behind a bar; a slash instead
/// where the LF is missing.
fn put(file: &mut Vec<u8>, sheet: &Sheet) {
    file.extend(format!("sheet {}\n", sheet.name).bytes());
    for (text, after) in [(&sheet.text, "list\n"), (&sheet.list, "")] {
        for line in lines(text) {
            let ended = line.ends_with(b"\n");
            file.push(if ended { b'|' } else { b'/' });
            file.extend(line);
            if !ended {
                file.push(b'\n');
            }
        }
        file.extend(after.bytes());
    }
}

fn of_theme((name, sheets): (&str, Vec<Sheet>)) -> File {
    let mut bytes = vec![];
    for sheet in &sheets {
        put(&mut bytes, sheet);
    }
    File {
        path: folder("tests/answers").join(name).with_extension("txt"),
        bytes,
        sheets: sheets.len(),
    }
}

pub fn answers() -> Vec<File> {
    themes().into_iter().map(of_theme).collect()
}

/// The list of every sheet in examples/.
pub fn examples() -> io::Result<Vec<File>> {
    let sheets = ending_in(&folder("examples"), "sheet")?;
    let made = sheets.into_iter().map(|path| {
        let bytes = list(&fs::read(&path)?).bytes;
        Ok(File {
            path: path.with_extension("list"),
            bytes,
            sheets: 1,
        })
    });
    made.collect()
}

/// Files that answer no sheet.
pub fn strays(made: &[File]) -> io::Result<Vec<PathBuf>> {
    let mut there = ending_in(&folder("tests/answers"), "txt")?;
    there.extend(ending_in(&folder("examples"), "list")?);
    there.retain(|path| !made.iter().any(|file| file.path == *path));
    Ok(there)
}
