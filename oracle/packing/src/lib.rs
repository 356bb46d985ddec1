//! A state and the arguments of a call, packed as the Rattle's entry points take them: in one array of
//! lengths and one of counts. What stands where is said here for the Rust, and in
//! crates/probe_values/src/packing.rt for the Rattle. A call reads and writes the places that it has a
//! use for, and no others.

#[cfg(feature = "grid")]
mod grids;

/// With room for more.
const LENGTHS: usize = 384;

pub type Lengths = [f32; LENGTHS];

// A region.
const MIN_RECT: usize = 0;
const MAX_RECT: usize = MIN_RECT + 4;
const CURSOR: usize = MAX_RECT + 4;

// A grid. A memory is 32 widths and 128 heights; one that is alone stands where a grid has its
// previous one. The three after initial_available are a grid's options.
const INITIAL_AVAILABLE: usize = CURSOR + 4;
const SPACING: usize = INITIAL_AVAILABLE + 4;
const MIN_CELL_SIZE: usize = SPACING + 2;
const MAX_CELL_SIZE: usize = MIN_CELL_SIZE + 2;
const PREV_STATE: usize = MAX_CELL_SIZE + 2;
const CURR_STATE: usize = PREV_STATE + 160;

// Arguments: a rectangle or a frame, which is also where a plate is put, a widget, a size, a spacing,
// and any one length.
const RECT: usize = CURR_STATE + 160;
const WIDGET_RECT: usize = RECT + 4;
const SIZE: usize = WIDGET_RECT + 4;
const ITEM_SPACING: usize = SIZE + 2;
const LENGTH: usize = ITEM_SPACING + 2;

/// With room for more.
const COUNTS: usize = 24;

pub type Counts = [usize; COUNTS];

// A layout's six fields, in the order of RULES 2.2.
const MAIN_DIR: usize = 0;
const CROSS_JUSTIFY: usize = MAIN_DIR + 5;

// Whether a placer has a grid, then a grid. A memory's counts are its columns and its rows.
const HAS_GRID: usize = CROSS_JUSTIFY + 1;
const IS_FIRST_FRAME: usize = HAS_GRID + 1;
const SIZING_PASS: usize = IS_FIRST_FRAME + 1;
const NUM_COLUMNS: usize = SIZING_PASS + 1;
const COL: usize = NUM_COLUMNS + 1;
const ROW: usize = COL + 1;
const PREV_COUNTS: usize = ROW + 1;
const CURR_COUNTS: usize = PREV_COUNTS + 2;

// Arguments and answers: which of an entry point's calls is meant; a column, a row, or the record at
// fault; whether the memory is known; whether it is to be saved.
const CALL: usize = CURR_COUNTS + 2;
const PLACE: usize = CALL + 1;
const KNOWN: usize = PLACE + 1;
const SAVE: usize = KNOWN + 1;

/// Declares crate probe_sheet's pass, or one by another name that has its parameters: a text and a
/// slice of rectangles, each a pointer and a length, and packed values, given and answered.
#[macro_export]
macro_rules! declare_pass {
    ($vis:vis $name:ident) => {
        unsafe extern "C" {
            $vis fn $name(
                text: *const u8,
                len: usize,
                lengths: &$crate::Lengths,
                counts: &$crate::Counts,
                out: *mut i32,
                room: usize,
                out_lengths: &mut $crate::Lengths,
                out_counts: &mut $crate::Counts,
            ) -> u8;
        }
    };
}

/// In a place that is to be written: no case expects it there.
pub const UNTOUCHED: f32 = 1.234_567_8e-30;
pub const NOWHERE: usize = usize::MAX;

#[derive(Clone)]
pub struct Packed {
    pub lengths: Lengths,
    pub counts: Counts,
}

impl Packed {
    /// To be filled and given: a length that was left out is a fault.
    pub fn unfilled() -> Self {
        Self {
            lengths: [f32::NAN; LENGTHS],
            counts: [NOWHERE; COUNTS],
        }
    }

    /// To be written.
    pub fn untouched() -> Self {
        Self {
            lengths: [UNTOUCHED; LENGTHS],
            counts: [NOWHERE; COUNTS],
        }
    }

    fn put_lengths(&mut self, at: usize, lengths: &[f32]) -> &mut Self {
        self.lengths[at..at + lengths.len()].copy_from_slice(lengths);
        self
    }

    fn put_count(&mut self, at: usize, count: usize) -> &mut Self {
        self.counts[at] = count;
        self
    }

    fn lengths_at<const N: usize>(&self, at: usize) -> [f32; N] {
        std::array::from_fn(|n| self.lengths[at + n])
    }

    /// What is no byte comes out as one that no case expects.
    fn byte_at(&self, at: usize) -> u8 {
        u8::try_from(self.counts[at]).unwrap_or(u8::MAX)
    }

    pub fn put_layout(&mut self, fields: &[u8; 6]) -> &mut Self {
        let places = &mut self.counts[MAIN_DIR..=CROSS_JUSTIFY];
        for (place, field) in places.iter_mut().zip(fields) {
            *place = usize::from(*field);
        }
        self
    }

    pub fn layout(&self) -> [u8; 6] {
        std::array::from_fn(|n| self.byte_at(MAIN_DIR + n))
    }

    pub fn put_direction(&mut self, main_dir: u8) -> &mut Self {
        self.put_count(MAIN_DIR, main_dir.into())
    }

    /// min_rect, max_rect, the cursor.
    pub fn put_region(&mut self, region: &[f32; 12]) -> &mut Self {
        self.put_lengths(MIN_RECT, region)
    }

    pub fn region(&self) -> [f32; 12] {
        self.lengths_at(MIN_RECT)
    }

    pub fn put_max_rect(&mut self, max_rect: &[f32; 4]) -> &mut Self {
        self.put_lengths(MAX_RECT, max_rect)
    }

    pub fn put_cursor(&mut self, cursor: &[f32; 4]) -> &mut Self {
        self.put_lengths(CURSOR, cursor)
    }

    pub fn cursor(&self) -> [f32; 4] {
        self.lengths_at(CURSOR)
    }

    pub fn put_has_grid(&mut self, has_grid: bool) -> &mut Self {
        self.put_count(HAS_GRID, has_grid.into())
    }

    pub fn has_grid(&self) -> bool {
        self.counts[HAS_GRID] != 0
    }

    /// Where it stands beside others: a frame.
    pub fn put_rect(&mut self, rect: &[f32; 4]) -> &mut Self {
        self.put_lengths(RECT, rect)
    }

    pub fn rect(&self) -> [f32; 4] {
        self.lengths_at(RECT)
    }

    pub fn put_widget_rect(&mut self, widget_rect: &[f32; 4]) -> &mut Self {
        self.put_lengths(WIDGET_RECT, widget_rect)
    }

    pub fn put_size(&mut self, size: &[f32; 2]) -> &mut Self {
        self.put_lengths(SIZE, size)
    }

    pub fn put_item_spacing(&mut self, item_spacing: &[f32; 2]) -> &mut Self {
        self.put_lengths(ITEM_SPACING, item_spacing)
    }

    pub fn put_length(&mut self, length: f32) -> &mut Self {
        self.put_lengths(LENGTH, &[length])
    }

    pub fn put_call(&mut self, call: u8) -> &mut Self {
        self.put_count(CALL, call.into())
    }

    pub fn put_place(&mut self, place: usize) -> &mut Self {
        self.put_count(PLACE, place)
    }

    pub fn place(&self) -> usize {
        self.counts[PLACE]
    }

    pub fn put_known(&mut self, known: bool) -> &mut Self {
        self.put_count(KNOWN, known.into())
    }

    pub fn save(&self) -> u8 {
        self.byte_at(SAVE)
    }

    pub fn put_sizing_pass(&mut self, sizing_pass: bool) -> &mut Self {
        self.put_count(SIZING_PASS, sizing_pass.into())
    }

    /// The spacing, the minimum and the maximum cell.
    pub fn put_options(&mut self, options: &[f32; 6]) -> &mut Self {
        self.put_lengths(SPACING, options)
    }

    pub fn put_num_columns(&mut self, num_columns: usize) -> &mut Self {
        self.put_count(NUM_COLUMNS, num_columns)
    }

    pub fn put_row(&mut self, row: usize) -> &mut Self {
        self.put_count(ROW, row)
    }
}
