//! One pass over a sheet as RULES 6.12 to 6.20 have it, driven through placer.rs.

use egui::grid::driver::Memory;
use egui::placer::driver::{ByLength, Running};

use super::plates::around;
use super::reference::{self, Outcome as Checked, Record, lines, record_at, unit};
use crate::emath_ops::{edges, rect};
use crate::faults::least;
use crate::grid::New;
use crate::grid::moves::{new as new_grid, running};
use crate::layout::layout;
use crate::placer::calls::{Call, expected, run};
use crate::placer::{Outcome, Placer, new as new_placer, widgets};
use crate::values::{Edges, TICKS_PER_POINT};

/// What a pass is given; an absent memory is one that is not known.
#[derive(Clone)]
pub struct Given {
    pub text: Vec<u8>,
    pub known: bool,
    pub memory: Memory,
    pub sizing: bool,
    pub out: Vec<i32>,
}

/// What it gives: the number, 0 for none, and the record, 0 for none.
pub struct Passed {
    pub number: u8,
    pub record: usize,
    pub plate: Edges,
    pub memory: Memory,
    pub save: u8,
    pub out: Vec<i32>,
}

/// A pass as the Rust has it, and its own min_rect at the end; that of a refused one is all zero.
pub struct Driven {
    pub passed: Passed,
    pub min_rect: Edges,
}

/// A pass in the midst of its sheet.
struct Pass<'a> {
    given: &'a Given,
    rust: Running,
    state: Placer,
    spacing: [f32; 2],
    frames: Vec<Edges>,
    /// The rectangles in ticks, eight numbers for each W.
    out: Vec<i32>,
}

pub fn ticks(r: &Edges) -> [i32; 4] {
    r.map(|x| (x * TICKS_PER_POINT) as i32)
}

impl<'a> Pass<'a> {
    /// H: Placer's `new`.
    fn begin(given: &'a Given, record: Record) -> Result<Self, u8> {
        let Record::Heading {
            layout: fields,
            max_rect,
            spacing,
        } = record
        else {
            unreachable!("a sheet that was checked begins with H");
        };
        let l = fields.map(|n| n as u8);
        let begun = || Running::new(rect(&max_rect), layout(&l));
        let answer = new_placer(&l, &max_rect, begun).answer();
        let Outcome::Placer(state) = answer.value else {
            unreachable!("new gives a placer");
        };
        match answer.number {
            0 => Ok(Self {
                given,
                rust: begun(),
                state: *state,
                spacing,
                frames: vec![],
                out: vec![],
            }),
            number => Err(number),
        }
    }

    fn call(&mut self, call: &Call) -> Result<(), u8> {
        let (state, rust) = (&self.state, &mut self.rust);
        let answer = expected(state, call, || run(rust, call, &state.grid)).answer();
        if answer.number != 0 {
            return Err(answer.number);
        }
        if let Outcome::Placer(state) = answer.value {
            self.state = *state;
        }
        Ok(())
    }

    /// G: GridLayout's `new` with the given memory, then `set_grid`.
    fn grid(
        &mut self,
        sizes: [f32; 4],
        columns: Option<usize>,
        start_row: usize,
    ) -> Result<(), u8> {
        let ([across, down], [a, b, c, d]) = (self.spacing, sizes);
        let new = New {
            dir: self.state.l[0],
            region: self.state.region,
            known: self.given.known,
            memory: self.given.memory,
            sizing_pass: self.given.sizing,
            options: [across, down, a, b, c, d],
            num_columns: columns.unwrap_or(0),
            start_row,
        };
        let answer = new_grid(&new, || running(&new).grid()).answer();
        match answer.number {
            0 => self.call(&Call::SetGrid(Box::new(answer.value))),
            number => Err(number),
        }
    }

    /// W: `next_space`, `justify_and_align`, `advance_after_rects`. First the numbers of what the
    /// three are given, then those of what they give.
    fn widget(&mut self, size: [f32; 2]) -> Result<(), u8> {
        let wanted = (size, self.spacing);
        let given = least(&widgets::given(&self.state, &wanted));
        if given != 0 {
            return Err(given);
        }
        let (numbers, laid) = widgets::laid(&self.state, &mut self.rust, &wanted);
        match least(&numbers) {
            0 => {
                self.state = laid.after;
                self.frames.push(laid.frame);
                self.out.extend(ticks(&laid.frame));
                self.out.extend(ticks(&laid.widget));
                Ok(())
            }
            number => Err(number),
        }
    }

    fn record(&mut self, record: Record) -> Result<(), u8> {
        let by_length = |which, x| Call::ByLength(which, x);
        let call = match record {
            Record::Heading { .. } => unreachable!("H is first only"),
            // Each W was converted as it was read.
            Record::Metric => return Ok(()),
            Record::Grid {
                min_cell: [a, b],
                max_cell: [c, d],
                columns,
                start_row,
            } => return self.grid([a, b, c, d], columns, start_row),
            Record::Widget(size) => return self.widget(size),
            Record::Space(x) => by_length(ByLength::AdvanceCursor, x),
            Record::RowHeight(x) => by_length(ByLength::SetRowHeight, x),
            Record::MaxWidth(x) => by_length(ByLength::SetMaxWidth, x),
            Record::MaxHeight(x) => by_length(ByLength::SetMaxHeight, x),
            Record::MinWidth(x) => by_length(ByLength::SetMinWidth, x),
            Record::MinHeight(x) => by_length(ByLength::SetMinHeight, x),
            Record::RowEnd => Call::EndRow(self.spacing),
        };
        self.call(&call)
    }

    /// A grid gives its memory, without one it is the one given.
    fn end(mut self) -> Driven {
        let min_rect = edges(self.rust.min_rect());
        let (memory, save) = if self.state.has_grid {
            self.rust.save_grid()
        } else {
            (self.given.memory, false)
        };
        let passed = Passed {
            number: 0,
            record: 0,
            plate: around(self.frames),
            memory,
            save: u8::from(save),
            out: on_top(&self.out, &self.given.out),
        };
        Driven { passed, min_rect }
    }
}

/// RULES 6.18, 8.19: no other place is written.
fn on_top(written: &[i32], before: &[i32]) -> Vec<i32> {
    [written, &before[written.len()..]].concat()
}

fn refused(given: &Given, number: u8, record: usize, written: &[i32]) -> Driven {
    let passed = Passed {
        number,
        record,
        plate: [0.0; 4],
        memory: given.memory,
        save: 0,
        out: on_top(written, &given.out),
    };
    Driven {
        passed,
        min_rect: [0.0; 4],
    }
}

pub fn pass(given: &Given) -> Driven {
    if let Checked::Refused { number, record } = reference::check(&given.text, given.out.len()) {
        return refused(given, number, record, &[]);
    }
    let unit = unit(&given.text);
    let records = lines(&given.text).map(|line| record_at(line, unit, 0));
    let mut records = records.map(|record| record.expect("checked"));
    let heading = records.next().expect("checked: there is a first record");
    let mut pass = match Pass::begin(given, heading) {
        Ok(pass) => pass,
        Err(number) => return refused(given, number, 1, &[]),
    };
    for (before, record) in records.enumerate() {
        if let Err(number) = pass.record(record) {
            return refused(given, number, before + 2, &pass.out);
        }
    }
    pass.end()
}
