//! The calls as include/morvenka.h has them, each run a pointer and a length, so that a program can make the library's calls and
//! these through pointers of the same type.

use std::slice;

/// # Safety
/// Each run is memory of its length, and the two don't overlap.
pub unsafe extern "C" fn compile(layout: *const u8, layout_len: usize, plan: *mut u8, plan_len: usize) -> u64 {
    crate::compile(run(layout, layout_len), lent(plan, plan_len))
}

/// # Safety
/// Each run is memory of its length, and the row overlaps no other.
pub unsafe extern "C" fn plan_read(
    plan: *const u8,
    plan_len: usize,
    record: *const u8,
    record_len: usize,
    row: *mut u8,
    row_len: usize,
) -> u64 {
    crate::plan_read(run(plan, plan_len), run(record, record_len), lent(row, row_len))
}

/// # Safety
/// Each run is memory of its length, and the record overlaps no other.
pub unsafe extern "C" fn plan_edit(
    plan: *const u8,
    plan_len: usize,
    row: *const u8,
    row_len: usize,
    record: *mut u8,
    record_len: usize,
) -> u64 {
    crate::plan_edit(run(plan, plan_len), run(row, row_len), lent(record, record_len))
}

/// A run that is read; a run of length 0 may have any pointer.
unsafe fn run<'a>(start: *const u8, length: usize) -> &'a [u8] {
    if length == 0 {
        &[]
    } else {
        slice::from_raw_parts(start, length)
    }
}

/// The run that is lent.
unsafe fn lent<'a>(start: *mut u8, length: usize) -> &'a mut [u8] {
    if length == 0 {
        &mut []
    } else {
        slice::from_raw_parts_mut(start, length)
    }
}
