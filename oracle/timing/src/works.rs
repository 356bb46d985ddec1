//! What is timed of a sheet, on both sides.

use std::hint::black_box;

use egui::grid::driver::Memory;

use crate::measure::Work;
use crate::place::{Laid, pass};
use crate::rattle::Rattle;
use crate::records::{Record, parse};
use crate::sheets::faulty;
use crate::write::{Line, List, ROOM, lines, print};

const SLICE: usize = 4_096;

/// A sheet, and the memory of its first pass where it has a grid: what is timed is its second.
pub struct Sheet {
    pub name: &'static str,
    /// Those that accept it: an earlier one may not know each of its records.
    pub trees: Vec<Rattle>,
    text: Vec<u8>,
    faulty: Vec<u8>,
    records: Vec<Record>,
    memory: Option<Memory>,
    lines: Vec<Line>,
}

fn lent() -> Vec<i32> {
    vec![0; SLICE]
}

impl Sheet {
    pub fn new(name: &'static str, text: Vec<u8>, in_grid: bool) -> Self {
        let mut records = vec![];
        parse(&text, SLICE, &mut records).expect("a good sheet");
        let mut sheet = Self {
            name,
            trees: vec![],
            faulty: faulty(&text),
            text,
            records,
            memory: None,
            lines: vec![],
        };
        if in_grid {
            sheet.memory = Some(sheet.rattle(Rattle::Here, &mut lent()).memory);
        }
        let mut list = Box::new([0; ROOM]);
        let length = print::<true>(&sheet.text, &mut vec![], &mut list);
        sheet.lines = lines(&list[..length]);
        sheet.trees = Rattle::TREES.to_vec();
        sheet
            .trees
            .retain(|tree| tree.pass(&sheet.text, None, true, &mut lent()).is_ok());
        for &tree in &sheet.trees {
            sheet.agree(tree, &list, length);
        }
        sheet
    }

    fn rattle(&self, tree: Rattle, out: &mut [i32]) -> Laid {
        let memory = self.memory.as_ref();
        tree.pass(&self.text, memory, memory.is_none(), out)
            .expect("a good sheet")
    }

    fn rust<const CHECKED: bool>(&self, records: &[Record], out: &mut [i32]) -> Laid {
        let memory = self.memory.as_ref();
        pass::<CHECKED>(records, memory, memory.is_none(), out).expect("a good sheet")
    }

    /// All have to do the same, or their times say nothing.
    fn agree(&self, tree: Rattle, list: &[u8; ROOM], length: usize) {
        let mut outs = [lent(), lent(), lent()];
        let [a, b, c] = &mut outs;
        let one = self.rattle(tree, a);
        for other in [
            self.rust::<false>(&self.records, b),
            self.rust::<true>(&self.records, c),
        ] {
            assert_eq!(one.plate, other.plate);
            assert_eq!(one.memory.counts, other.memory.counts);
            assert_eq!(one.memory.widths, other.memory.widths);
            assert_eq!(one.memory.heights, other.memory.heights);
            assert_eq!(one.save, other.save);
        }
        assert!(a == b && b == c);

        let [mut whole, mut by_line, mut in_rust] = [(); 3].map(|()| Box::new([0; ROOM]));
        assert_eq!(tree.print(&self.text, &mut whole), length);
        assert_eq!(self.write(tree, &mut by_line), length);
        assert_eq!(self.write_in_rust(&mut in_rust), length);
        assert!(*list == *whole && whole == by_line && by_line == in_rust);
    }

    /// The lines of the list, one call each.
    fn write(&self, tree: Rattle, out: &mut [u8; ROOM]) -> usize {
        let mut at = 0;
        for (letter, numbers) in &self.lines {
            assert!(tree.write_line(out, at, *letter, numbers));
            at += 2 + 8 * numbers.len();
        }
        at
    }

    fn write_in_rust(&self, out: &mut [u8; ROOM]) -> usize {
        let mut list = List::new(out);
        for (letter, numbers) in &self.lines {
            list.line(*letter, numbers);
        }
        list.length()
    }

    /// The text's check, which meets a fault in the last record.
    pub fn text_alone(&self, tree: Rattle) -> Work<'_> {
        let mut out = lent();
        Box::new(move || {
            let refused = tree.pass(black_box(&self.faulty), None, true, &mut out);
            assert!(matches!(refused, Err((1, _))));
        })
    }

    pub fn text_alone_in_rust(&self) -> Work<'_> {
        let mut records = vec![];
        Box::new(move || {
            let refused = parse(black_box(&self.faulty), SLICE, &mut records);
            assert!(matches!(refused, Err((1, _))));
        })
    }

    /// A pass of the Rust over records that it has parsed already.
    pub fn parsed<const CHECKED: bool>(&self) -> Work<'_> {
        let mut out = lent();
        Box::new(move || {
            black_box(self.rust::<CHECKED>(black_box(&self.records), &mut out));
        })
    }

    pub fn text_pass(&self, tree: Rattle) -> Work<'_> {
        let mut out = lent();
        Box::new(move || {
            black_box(black_box(self).rattle(tree, &mut out));
        })
    }

    pub fn text_pass_in_rust<const CHECKED: bool>(&self) -> Work<'_> {
        let (mut out, mut records) = (lent(), vec![]);
        Box::new(move || {
            parse(black_box(&self.text), SLICE, &mut records).expect("a good sheet");
            black_box(self.rust::<CHECKED>(&records, &mut out));
        })
    }

    pub fn list(&self, tree: Rattle) -> Work<'_> {
        let mut out = Box::new([0; ROOM]);
        Box::new(move || {
            black_box(tree.print(black_box(&self.text), &mut out));
        })
    }

    pub fn list_in_rust<const CHECKED: bool>(&self) -> Work<'_> {
        let (mut out, mut records) = (Box::new([0; ROOM]), vec![]);
        Box::new(move || {
            let text = black_box(&self.text);
            black_box(print::<CHECKED>(text, &mut records, &mut out));
        })
    }

    pub fn lines(&self, tree: Rattle) -> Work<'_> {
        let mut out = Box::new([0; ROOM]);
        Box::new(move || {
            black_box(black_box(self).write(tree, &mut out));
        })
    }

    pub fn lines_in_rust(&self) -> Work<'_> {
        let mut out = Box::new([0; ROOM]);
        Box::new(move || {
            black_box(black_box(self).write_in_rust(&mut out));
        })
    }
}
