//! The proved library: its four exported functions, and safe wrappers over
//! them. A slice is passed as a pointer and a length.

use crate::oracle::Passed;

/// What solve gives back.
#[repr(C)]
#[derive(Clone, Copy, Debug, PartialEq, Eq)]
pub struct Solved {
    pub number: u32,
    pub verdict: u32,
    pub must: u32,
    pub may: u32,
    pub used: u32,
}

/// What value gives back.
#[repr(C)]
struct Valued {
    number: u32,
    bit: u32,
    passed: u32,
}

extern "C" {
    fn rule_solve(
        sheet: *const u8,
        sheet_len: usize,
        limit: u32,
        table: *mut u32,
        table_len: usize,
        work: *mut u32,
        work_len: usize,
    ) -> Solved;
    fn rule_solve_unnamed(
        sheet: *const u8,
        sheet_len: usize,
        table: *mut u32,
        table_len: usize,
        work: *mut u32,
        work_len: usize,
    ) -> Solved;
    fn rule_value(
        table: *const u32,
        table_len: usize,
        used: u32,
        diagram: u32,
        assignment: *const u8,
        assignment_len: usize,
    ) -> Valued;
    fn rule_witness(
        table: *const u32,
        table_len: usize,
        used: u32,
        diagram: u32,
        assignment: *mut u8,
        assignment_len: usize,
    ) -> u32;
}

/// Solve at a limit, or without a named one.
pub fn solve(sheet: &[u8], limit: Option<u32>, table: &mut [u32], work: &mut [u32]) -> Solved {
    // Safety: the pointers and lengths are of slices that are lent for the call.
    unsafe { solve_at(sheet, limit, table.as_mut_ptr(), table.len(), work.as_mut_ptr(), work.len()) }
}

/// The same over memory that may never have been written.
///
/// # Safety
/// Both pointers are good for their lengths, and nothing else uses that memory.
pub unsafe fn solve_at(
    sheet: &[u8],
    limit: Option<u32>,
    table: *mut u32,
    table_len: usize,
    work: *mut u32,
    work_len: usize,
) -> Solved {
    match limit {
        Some(limit) => rule_solve(sheet.as_ptr(), sheet.len(), limit, table, table_len, work, work_len),
        None => rule_solve_unnamed(sheet.as_ptr(), sheet.len(), table, table_len, work, work_len),
    }
}

pub fn value(table: &[u32], used: u32, diagram: u32, assignment: &[u8]) -> Passed {
    // Safety: as above; nothing is written.
    let valued = unsafe {
        rule_value(table.as_ptr(), table.len(), used, diagram, assignment.as_ptr(), assignment.len())
    };
    Passed { number: valued.number, bit: valued.bit, passed: valued.passed }
}

/// Writes the least accepted assignment; gives back the number.
pub fn witness(table: &[u32], used: u32, diagram: u32, assignment: &mut [u8]) -> u32 {
    // Safety: as above; only the assignment is written.
    unsafe {
        rule_witness(table.as_ptr(), table.len(), used, diagram, assignment.as_mut_ptr(), assignment.len())
    }
}
