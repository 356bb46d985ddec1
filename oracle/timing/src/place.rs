//! A pass over parsed records, driven through egui's placer.rs.

use egui::grid::driver::{Memory, Running as Grid};
use egui::layout::Layout;
use egui::placer::driver::{ByLength, Running};
use egui::{Align, Direction};
use emath::{Rect, pos2, vec2};

use crate::records::{Fault, PLACES, Record};

const LIMIT: f32 = 65_536.0;

pub struct Laid {
    pub plate: [f32; 4],
    /// The one given, where there is no grid.
    pub memory: Memory,
    pub save: bool,
}

fn align(n: u8) -> Align {
    [Align::Min, Align::Center, Align::Max][usize::from(n)]
}

fn layout([dir, wrap, main, main_justify, cross, cross_justify]: [u8; 6]) -> Layout {
    let directions = [
        Direction::LeftToRight,
        Direction::RightToLeft,
        Direction::TopDown,
        Direction::BottomUp,
    ];
    Layout {
        main_dir: directions[usize::from(dir)],
        main_wrap: wrap != 0,
        main_align: align(main),
        main_justify: main_justify != 0,
        cross_align: align(cross),
        cross_justify: cross_justify != 0,
    }
}

fn rect([left, top, right, bottom]: [f32; 4]) -> Rect {
    Rect::from_min_max(pos2(left, top), pos2(right, bottom))
}

fn edges(r: Rect) -> [f32; 4] {
    [r.left(), r.top(), r.right(), r.bottom()]
}

fn put_ticks(places: &mut [i32], r: Rect) {
    for (place, edge) in places.iter_mut().zip(edges(r)) {
        *place = (edge * 32.0) as i32;
    }
}

/// Whether all are finite and within the limit; no NaN is.
fn within(lengths: &[f32]) -> bool {
    lengths.iter().all(|x| x.abs() <= LIMIT)
}

fn in_order(edges: &[f32]) -> bool {
    edges[0] <= edges[2] && edges[1] <= edges[3]
}

/// A pass in the midst of its sheet; `CHECKED` asks for the numbers of RULES 8 too.
struct Pass<const CHECKED: bool> {
    placer: Running,
    spacing: [f32; 2],
    direction: u8,
    in_grid: bool,
    col: usize,
    row: usize,
    /// Of the frames so far.
    plate: Rect,
}

impl<const CHECKED: bool> Pass<CHECKED> {
    /// RULES 8.13, of the region.
    fn state_fits(&self) -> bool {
        let mut region = self.placer.region();
        // The cursor's open edge may be infinite outward.
        let (open, outward) = [
            (10, f32::INFINITY),
            (8, f32::NEG_INFINITY),
            (11, f32::INFINITY),
            (9, f32::NEG_INFINITY),
        ][usize::from(self.direction)];
        if region[open] == outward {
            region[open] = 0.0;
        }
        within(&region) && in_order(&region[..4]) && in_order(&region[4..8])
    }

    fn checked(&self, number: u8) -> Result<(), u8> {
        if CHECKED && number != 0 {
            return Err(number);
        }
        Ok(())
    }

    fn new_state(&self) -> Result<(), u8> {
        if CHECKED && !self.state_fits() {
            return Err(9);
        }
        Ok(())
    }

    fn widget(&mut self, size: [f32; 2], places: &mut [i32]) -> Result<(), u8> {
        let ([width, height], [across, down]) = (size, self.spacing);
        if CHECKED {
            self.checked(if width < 0.0 || height < 0.0 { 6 } else { 0 })?;
            let full = self.in_grid && (self.col == 32 || self.row == 128);
            self.checked(if full { 8 } else { 0 })?;
        }
        let (size, spacing) = (vec2(width, height), vec2(across, down));
        let frame = self.placer.next_space(size, spacing);
        let widget = self.placer.justify_and_align(frame, size);
        self.placer.advance_after_rects(frame, widget, spacing);
        self.col += 1;
        if CHECKED {
            // A grid remembers the widget's width and height.
            let remembered = [widget.width(), widget.height()];
            let answers = within(&edges(frame)) && within(&edges(widget));
            let fits = answers && (!self.in_grid || within(&remembered));
            self.checked(if fits { 0 } else { 9 })?;
            self.new_state()?;
        }
        self.plate |= frame;
        put_ticks(&mut places[..4], frame);
        put_ticks(&mut places[4..], widget);
        Ok(())
    }

    fn by_length(&mut self, which: ByLength, length: f32) -> Result<(), u8> {
        if CHECKED {
            let limits = [ByLength::SetMaxWidth, ByLength::SetMaxHeight].contains(&which);
            self.checked(if limits && length < 0.0 { 6 } else { 0 })?;
            let gap = self.in_grid && which == ByLength::AdvanceCursor;
            self.checked(if gap { 7 } else { 0 })?;
        }
        self.placer.change_by_length(which, length);
        self.new_state()
    }

    fn row_end(&mut self) -> Result<(), u8> {
        let full = self.in_grid && self.row == 128;
        self.checked(if full { 8 } else { 0 })?;
        let [across, down] = self.spacing;
        self.placer.end_row(vec2(across, down));
        self.col = 0;
        self.row += 1;
        self.new_state()
    }

    fn grid(&mut self, record: Record, memory: Option<&Memory>, sizing: bool) -> Result<(), u8> {
        let Record::Grid {
            min_cell,
            max_cell,
            columns,
            start_row,
        } = record
        else {
            return Ok(());
        };
        let negative = min_cell.iter().chain(&max_cell).any(|&size| size < 0.0);
        self.checked(if negative { 6 } else { 0 })?;
        self.checked(if self.direction % 2 == 1 { 7 } else { 0 })?;
        let sizes = [self.spacing, min_cell, max_cell].map(|[x, y]| vec2(x, y));
        let (max_rect, cursor) = (self.placer.max_rect(), self.placer.cursor());
        let (columns, start_row) = (usize::from(columns), usize::from(start_row));
        let grid = Grid::new(max_rect, cursor, memory, sizing, sizes, columns, start_row);
        self.placer.put_grid(grid);
        self.in_grid = true;
        (self.col, self.row) = (0, start_row);
        Ok(())
    }
}

fn begin<const CHECKED: bool>(record: Record) -> Result<Pass<CHECKED>, u8> {
    let Record::Heading {
        layout: fields,
        max_rect,
        spacing,
    } = record
    else {
        return Err(1);
    };
    if CHECKED && !in_order(&max_rect) {
        return Err(6);
    }
    let pass = Pass {
        placer: Running::new(rect(max_rect), layout(fields)),
        spacing,
        direction: fields[0],
        in_grid: false,
        col: 0,
        row: 0,
        plate: Rect::NOTHING,
    };
    pass.new_state()?;
    Ok(pass)
}

/// One pass; after a fault the plate and the memory are the caller's matter.
pub fn pass<const CHECKED: bool>(
    records: &[Record],
    memory: Option<&Memory>,
    sizing: bool,
    out: &mut [i32],
) -> Result<Laid, Fault> {
    let mut pass = begin::<CHECKED>(records[0]).map_err(|number| (number, 1))?;
    let mut places = out.chunks_exact_mut(PLACES);
    for (record, n) in records[1..].iter().zip(2..) {
        let done = match *record {
            Record::Widget(size) => pass.widget(size, places.next().expect("room for every W")),
            Record::RowEnd => pass.row_end(),
            Record::ByLength(which, length) => pass.by_length(which, length),
            Record::Grid { .. } => pass.grid(*record, memory, sizing),
            Record::Metric => Ok(()),
            Record::Heading { .. } => Err(1),
        };
        done.map_err(|number| (number, n))?;
    }
    let none = pass.plate.is_negative();
    let given = memory.copied().unwrap_or(Memory::EMPTY);
    let (memory, save) = pass.placer.saved_grid().unwrap_or((given, false));
    Ok(Laid {
        plate: if none { [0.0; 4] } else { edges(pass.plate) },
        memory,
        save,
    })
}
