//! The calls into the static library: the one module with unsafe code.
//!
//! The declarations are those of `include/obolchime.h`. It asks of a caller that each pointer and length name memory that can be
//! read, and written where it is `*mut`; that no length is over `isize::MAX`; and that what is written overlaps nothing else. A `&[u8]`
//! and a `&mut [u8]` have all three by their types, and the library keeps no pointer after a call: so every call here is sound,
//! whatever the bytes are. Each `unsafe` block below is one call with the pointers and lengths of slices that the function was lent.
//!
//! Where the header has a `uint64_t` that is a size, a place or a field's number, it is a `usize` here: on x86-64 Linux, the one target,
//! these are the same, and so no number is cut on its way.
#![allow(unsafe_code)]

use std::mem::size_of;

const _: () = assert!(size_of::<usize>() == size_of::<u64>(), "the header's uint64_t is read as a usize");

#[repr(C)]
pub struct Reading {
    pub number: u64,
    pub field: usize,
    pub position: usize,
    pub used: usize,
    pub bitmaps: usize,
}

#[repr(C)]
pub struct Written {
    pub number: u64,
    pub field: usize,
    pub position: usize,
    pub length: usize,
}

#[repr(C)]
pub struct Cleaned {
    pub number: u64,
    pub field: usize,
    pub position: usize,
    pub length: usize,
    pub padded1: u64,
    pub padded2: u64,
    pub padded3: u64,
}

#[repr(C)]
pub struct Found {
    pub number: u64,
    pub field: usize,
    pub position: usize,
    pub offset: usize,
    pub length: usize,
}

#[repr(C)]
pub struct Translated {
    pub number: u64,
    pub field: usize,
    pub position: usize,
    pub used: usize,
    pub written: usize,
}

#[repr(C)]
pub struct Measured {
    pub number: u64,
    pub field: usize,
    pub position: usize,
    pub value: usize,
}

#[repr(C)]
pub struct Checked {
    pub number: u64,
    pub field: usize,
    pub position: usize,
}

extern "C" {
    fn obol_read(message: *const u8, message_length: usize, notes: *mut u8, notes_length: usize) -> Reading;
    fn obol_write_exact(
        values: *const u8,
        values_length: usize,
        notes: *const u8,
        notes_length: usize,
        out: *mut u8,
        out_length: usize,
    ) -> Written;
    fn obol_write_clean(
        values: *const u8,
        values_length: usize,
        notes: *const u8,
        notes_length: usize,
        out: *mut u8,
        out_length: usize,
    ) -> Cleaned;
    fn obol_look_up(values: *const u8, values_length: usize, notes: *const u8, notes_length: usize, number: usize) -> Found;
    fn obol_pack(plain: *const u8, plain_length: usize, out: *mut u8, out_length: usize) -> Translated;
    fn obol_unpack(packed: *const u8, packed_length: usize, out: *mut u8, out_length: usize) -> Translated;
    fn obol_check_field(number: usize, content: *const u8, content_length: usize) -> Checked;
    fn obol_check_required(values: *const u8, values_length: usize, notes: *const u8, notes_length: usize) -> Checked;
    fn obol_check_pan(content: *const u8, content_length: usize) -> Checked;
    fn obol_check_date(content: *const u8, content_length: usize) -> Checked;
    fn obol_check_time(content: *const u8, content_length: usize) -> Checked;
    fn obol_bcd_encode(source: *const u8, source_length: usize, out: *mut u8, out_length: usize) -> Written;
    fn obol_bcd_decode(source: *const u8, source_length: usize, digits: usize, out: *mut u8, out_length: usize) -> Written;
    fn obol_ebcdic_encode(source: *const u8, source_length: usize, out: *mut u8, out_length: usize) -> Written;
    fn obol_ebcdic_decode(source: *const u8, source_length: usize, out: *mut u8, out_length: usize) -> Written;
    fn obol_length_encode(length: usize, digits: usize, encoding: u64, out: *mut u8, out_length: usize) -> Written;
    fn obol_length_decode(source: *const u8, source_length: usize, digits: usize, encoding: u64) -> Measured;
}

pub fn read(message: &[u8], notes: &mut [u8]) -> Reading {
    // SAFETY: both are slices; notes is exclusive, so it does not overlap the message.
    unsafe { obol_read(message.as_ptr(), message.len(), notes.as_mut_ptr(), notes.len()) }
}

pub fn write_exact(values: &[u8], notes: &[u8], out: &mut [u8]) -> Written {
    // SAFETY: all are slices; out is exclusive.
    unsafe { obol_write_exact(values.as_ptr(), values.len(), notes.as_ptr(), notes.len(), out.as_mut_ptr(), out.len()) }
}

pub fn write_clean(values: &[u8], notes: &[u8], out: &mut [u8]) -> Cleaned {
    // SAFETY: all are slices; out is exclusive.
    unsafe { obol_write_clean(values.as_ptr(), values.len(), notes.as_ptr(), notes.len(), out.as_mut_ptr(), out.len()) }
}

pub fn look_up(values: &[u8], notes: &[u8], number: usize) -> Found {
    // SAFETY: both are slices, and only read; any number is taken.
    unsafe { obol_look_up(values.as_ptr(), values.len(), notes.as_ptr(), notes.len(), number) }
}

pub fn pack(plain: &[u8], out: &mut [u8]) -> Translated {
    // SAFETY: both are slices; out is exclusive.
    unsafe { obol_pack(plain.as_ptr(), plain.len(), out.as_mut_ptr(), out.len()) }
}

pub fn unpack(packed: &[u8], out: &mut [u8]) -> Translated {
    // SAFETY: both are slices; out is exclusive.
    unsafe { obol_unpack(packed.as_ptr(), packed.len(), out.as_mut_ptr(), out.len()) }
}

pub fn check_field(number: usize, content: &[u8]) -> Checked {
    // SAFETY: a slice that is only read; any number is taken.
    unsafe { obol_check_field(number, content.as_ptr(), content.len()) }
}

pub fn check_required(values: &[u8], notes: &[u8]) -> Checked {
    // SAFETY: both are slices, and only read.
    unsafe { obol_check_required(values.as_ptr(), values.len(), notes.as_ptr(), notes.len()) }
}

pub fn check_pan(content: &[u8]) -> Checked {
    // SAFETY: a slice that is only read.
    unsafe { obol_check_pan(content.as_ptr(), content.len()) }
}

pub fn check_date(content: &[u8]) -> Checked {
    // SAFETY: a slice that is only read.
    unsafe { obol_check_date(content.as_ptr(), content.len()) }
}

pub fn check_time(content: &[u8]) -> Checked {
    // SAFETY: a slice that is only read.
    unsafe { obol_check_time(content.as_ptr(), content.len()) }
}

pub fn bcd_encode(source: &[u8], out: &mut [u8]) -> Written {
    // SAFETY: both are slices; out is exclusive.
    unsafe { obol_bcd_encode(source.as_ptr(), source.len(), out.as_mut_ptr(), out.len()) }
}

pub fn bcd_decode(source: &[u8], digits: usize, out: &mut [u8]) -> Written {
    // SAFETY: both are slices; out is exclusive; any count of digits is taken.
    unsafe { obol_bcd_decode(source.as_ptr(), source.len(), digits, out.as_mut_ptr(), out.len()) }
}

pub fn ebcdic_encode(source: &[u8], out: &mut [u8]) -> Written {
    // SAFETY: both are slices; out is exclusive.
    unsafe { obol_ebcdic_encode(source.as_ptr(), source.len(), out.as_mut_ptr(), out.len()) }
}

pub fn ebcdic_decode(source: &[u8], out: &mut [u8]) -> Written {
    // SAFETY: both are slices; out is exclusive.
    unsafe { obol_ebcdic_decode(source.as_ptr(), source.len(), out.as_mut_ptr(), out.len()) }
}

pub fn length_encode(length: usize, digits: usize, encoding: u64, out: &mut [u8]) -> Written {
    // SAFETY: out is a slice; any numbers are taken.
    unsafe { obol_length_encode(length, digits, encoding, out.as_mut_ptr(), out.len()) }
}

pub fn length_decode(source: &[u8], digits: usize, encoding: u64) -> Measured {
    // SAFETY: a slice that is only read; any numbers are taken.
    unsafe { obol_length_decode(source.as_ptr(), source.len(), digits, encoding) }
}
