//! The Rattle's entry points: of this tree, and of an earlier one where the benchmark was given it.

use egui::grid::driver::Memory;
use packing::Packed;

use crate::place::Laid;
use crate::records::Fault;
use crate::write::ROOM;

macro_rules! entry_points {
    ($tree:ident: $pass:ident, $print:ident, $write_line:ident) => {
        mod $tree {
            use super::ROOM;

            packing::declare_pass!(pub $pass);
            unsafe extern "C" {
                pub fn $print(text: *const u8, len: usize, out: &mut [u8; ROOM]) -> usize;
                pub fn $write_line(
                    out: *mut u8,
                    room: usize,
                    at: usize,
                    letter: u8,
                    numbers: *const i32,
                    count: usize,
                ) -> bool;
            }
        }
    };
}

entry_points!(here: sheet_pass, listing_print, line_write);
#[cfg(before)]
entry_points!(before: before_sheet_pass, before_listing_print, before_line_write);

/// One tree's entry points. Each reads and writes no more than what it is lent, and ends: that is
/// proved there, so the calls below are sound.
#[derive(Clone, Copy)]
pub enum Rattle {
    Here,
    #[cfg(before)]
    Before,
}

impl Rattle {
    pub const TREES: &[Self] = &[
        Self::Here,
        #[cfg(before)]
        Self::Before,
    ];

    pub fn pass(
        self,
        text: &[u8],
        memory: Option<&Memory>,
        sizing: bool,
        out: &mut [i32],
    ) -> Result<Laid, Fault> {
        let (mut given, mut after) = (Packed::unfilled(), Packed::untouched());
        given.put_memory(memory.unwrap_or(&Memory::EMPTY));
        given.put_known(memory.is_some()).put_sizing_pass(sizing);
        let call = match self {
            Self::Here => here::sheet_pass,
            #[cfg(before)]
            Self::Before => before::before_sheet_pass,
        };
        let number = unsafe {
            call(
                text.as_ptr(),
                text.len(),
                &given.lengths,
                &given.counts,
                out.as_mut_ptr(),
                out.len(),
                &mut after.lengths,
                &mut after.counts,
            )
        };
        if number != 0 {
            return Err((number, after.place()));
        }
        Ok(Laid {
            plate: after.rect(),
            memory: after.memory(),
            save: after.save() != 0,
        })
    }

    pub fn print(self, text: &[u8], out: &mut [u8; ROOM]) -> usize {
        let call = match self {
            Self::Here => here::listing_print,
            #[cfg(before)]
            Self::Before => before::before_listing_print,
        };
        unsafe { call(text.as_ptr(), text.len(), out) }
    }

    pub fn write_line(self, out: &mut [u8], at: usize, letter: u8, numbers: &[i32]) -> bool {
        let call = match self {
            Self::Here => here::line_write,
            #[cfg(before)]
            Self::Before => before::before_line_write,
        };
        let (room, count) = (out.len(), numbers.len());
        unsafe { call(out.as_mut_ptr(), room, at, letter, numbers.as_ptr(), count) }
    }
}
