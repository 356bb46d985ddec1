//! The entry points of crates probe_records, probe_sheet and probe_listing, by the names they have
//! there. A slice goes there as a pointer and a length, and a bool comes back as a byte.

#[cfg(feature = "placer")]
use packing::Packed;

use super::answers::{Checked, FieldRead, HeadingRead, RecordRead, Written};
#[cfg(feature = "placer")]
use super::driver::{Given, Passed};
use super::reference::Unit;

/// What a list is printed into: room for 512 W, P, 32 C and 128 D.
#[cfg(feature = "placer")]
pub const LIST_ROOM: usize = 40_802;

#[cfg(feature = "placer")]
packing::declare_pass!(sheet_pass);

unsafe extern "C" {
    fn field_read(text: *const u8, len: usize, at: usize, limit: u32, value: &mut [i32; 1]) -> u8;
    fn field_write(out: *mut u8, len: usize, at: usize, z: i32) -> u8;
    fn heading_read(
        text: *const u8,
        len: usize,
        lengths: &mut [f32; 10],
        counts: &mut [usize; 12],
    ) -> usize;
    fn record_read(
        text: *const u8,
        len: usize,
        hundredths: bool,
        at: usize,
        lengths: &mut [f32; 2],
    ) -> u8;
    fn sheet_check(text: *const u8, len: usize, room: usize, counts: &mut [usize; 2]) -> u8;
    #[cfg(feature = "placer")]
    fn listing_print(text: *const u8, len: usize, out: &mut [u8; LIST_ROOM]) -> usize;
    fn line_write(
        out: *mut u8,
        len: usize,
        at: usize,
        letter: u8,
        numbers: *const i32,
        count: usize,
    ) -> u8;
}

// Each reads and writes no more than what it is lent, and ends: that is proved there, so the calls
// below are sound.

pub fn read_field(text: &[u8], at: usize, limit: u32) -> FieldRead {
    let mut read = FieldRead::UNTOUCHED;
    let value = &mut read.value;
    read.kind = unsafe { field_read(text.as_ptr(), text.len(), at, limit, value) };
    read
}

pub fn read_heading(text: &[u8]) -> HeadingRead {
    let mut read = HeadingRead::UNTOUCHED;
    let (lengths, counts) = (&mut read.lengths, &mut read.counts);
    read.fault = unsafe { heading_read(text.as_ptr(), text.len(), lengths, counts) };
    read
}

pub fn read_record(text: &[u8], unit: Unit, at: usize) -> RecordRead {
    let mut read = RecordRead::UNTOUCHED;
    let (lengths, hundredths) = (&mut read.lengths, unit == Unit::Hundredths);
    read.kind = unsafe { record_read(text.as_ptr(), text.len(), hundredths, at, lengths) };
    read
}

pub fn check(text: &[u8], room: usize) -> Checked {
    let mut checked = Checked::UNTOUCHED;
    let counts = &mut checked.counts;
    checked.number = unsafe { sheet_check(text.as_ptr(), text.len(), room, counts) };
    checked
}

/// Of `bytes` the first `len` are lent.
pub fn write_field(mut bytes: Vec<u8>, len: usize, at: usize, z: i32) -> Written {
    let out = &mut bytes[..len];
    let written = unsafe { field_write(out.as_mut_ptr(), len, at, z) };
    Written { written, bytes }
}

/// Of `bytes` the first `len` are lent.
pub fn write_line(
    mut bytes: Vec<u8>,
    len: usize,
    at: usize,
    letter: u8,
    numbers: &[i32],
) -> Written {
    let out = &mut bytes[..len];
    let (first, count) = (numbers.as_ptr(), numbers.len());
    let written = unsafe { line_write(out.as_mut_ptr(), len, at, letter, first, count) };
    Written { written, bytes }
}

#[cfg(feature = "placer")]
pub fn pass(given: &Given) -> Passed {
    let mut out = given.out.clone();
    let (mut packed, mut after) = (Packed::unfilled(), Packed::untouched());
    packed.put_memory(&given.memory).put_known(given.known);
    packed.put_sizing_pass(given.sizing);
    let number = unsafe {
        sheet_pass(
            given.text.as_ptr(),
            given.text.len(),
            &packed.lengths,
            &packed.counts,
            out.as_mut_ptr(),
            out.len(),
            &mut after.lengths,
            &mut after.counts,
        )
    };
    Passed {
        number,
        record: after.place(),
        plate: after.rect(),
        memory: after.memory(),
        save: after.save(),
        out,
    }
}

/// The length of the list, which stands at the front of `out`.
#[cfg(feature = "placer")]
pub fn print(text: &[u8], out: &mut [u8; LIST_ROOM]) -> usize {
    unsafe { listing_print(text.as_ptr(), text.len(), out) }
}
