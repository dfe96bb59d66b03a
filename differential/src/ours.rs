//! The proved library, as `include/small.h` declares it, behind safe functions.

/// What was recorded at one moment: a reading where `code` is 0, and else the fault of that code.
#[repr(C)]
#[derive(Clone, Copy, Debug, PartialEq, Eq)]
pub struct Sample {
    pub code: u8,
    pub reading: i32,
}

/// A value that a program put: sort 0 is a number, sort 1 a truth.
#[repr(C)]
#[derive(Clone, Copy, Debug, PartialEq, Eq)]
pub struct Datum {
    pub sort: u8,
    pub number: i32,
}

/// Accepted (0, 0), or a refusal and its node.
#[repr(C)]
#[derive(Clone, Copy, Debug, PartialEq, Eq)]
pub struct Checked {
    pub refusal: u8,
    pub node: u16,
}

#[repr(C)]
#[derive(Clone, Copy, Debug, PartialEq, Eq)]
pub struct Written {
    pub refusal: u8,
    pub node: u16,
    pub length: usize,
}

/// How a take stands.
#[repr(C)]
#[derive(Clone, Copy, Debug, PartialEq, Eq)]
pub struct Outcome {
    pub refusal: u8,
    pub ended: bool,
    pub end: u8,
    pub code: u8,
    pub node: u16,
    pub steps: u32,
    pub left: usize,
    pub filled: usize,
}

mod library {
    use super::{Checked, Datum, Outcome, Sample, Written};

    extern "C" {
        pub fn small_check(table: *const u8, length: usize) -> Checked;
        pub fn small_open(sheet: *const u8, length: usize) -> Checked;
        pub fn small_sheet(table: *const u8, length: usize, memory: *mut u8, room: usize) -> Written;
        pub fn small_run_text(
            table: *const u8,
            length: usize,
            samples: *const Sample,
            count: usize,
            text: *mut u8,
            room: usize,
            fuel: u32,
        ) -> Outcome;
        pub fn small_run_data(
            table: *const u8,
            length: usize,
            samples: *const Sample,
            count: usize,
            memory: *mut Datum,
            room: usize,
            fuel: u32,
        ) -> Outcome;
    }
}

// Safety, of all five: a slice gives a pointer that is aligned, never null, and good for its length; exclusive slices overlap
// with no other; and the library keeps no pointer.

pub fn check(table: &[u8]) -> Checked {
    unsafe { library::small_check(table.as_ptr(), table.len()) }
}

pub fn open(sheet: &[u8]) -> Checked {
    unsafe { library::small_open(sheet.as_ptr(), sheet.len()) }
}

pub fn sheet(table: &[u8], memory: &mut [u8]) -> Written {
    unsafe { library::small_sheet(table.as_ptr(), table.len(), memory.as_mut_ptr(), memory.len()) }
}

pub fn run_text(table: &[u8], samples: &[Sample], text: &mut [u8], fuel: u32) -> Outcome {
    unsafe {
        library::small_run_text(
            table.as_ptr(),
            table.len(),
            samples.as_ptr(),
            samples.len(),
            text.as_mut_ptr(),
            text.len(),
            fuel,
        )
    }
}

pub fn run_data(table: &[u8], samples: &[Sample], memory: &mut [Datum], fuel: u32) -> Outcome {
    unsafe {
        library::small_run_data(
            table.as_ptr(),
            table.len(),
            samples.as_ptr(),
            samples.len(),
            memory.as_mut_ptr(),
            memory.len(),
            fuel,
        )
    }
}
