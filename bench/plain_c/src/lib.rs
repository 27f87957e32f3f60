//! The plain version behind the C functions, to stand in for the proved library.

use std::slice::{from_raw_parts, from_raw_parts_mut};

/// # Safety
/// Each pointer is aligned, not null, and lends so many words that nothing else uses meanwhile.
#[no_mangle]
pub unsafe extern "C" fn tanczotka_solve(
    table: *mut u32,
    table_len: usize,
    n: usize,
    solutions: *mut u32,
    solutions_len: usize,
    queue: *mut u32,
    queue_len: usize,
) -> u64 {
    let table = from_raw_parts_mut(table, table_len);
    let solutions = from_raw_parts_mut(solutions, solutions_len);
    let queue = from_raw_parts_mut(queue, queue_len);
    plain::solve(table, n, solutions, queue).packed()
}

/// # Safety
/// As for `tanczotka_solve`.
#[no_mangle]
pub unsafe extern "C" fn tanczotka_show(
    table: *mut u32,
    table_len: usize,
    n: usize,
    solutions: *mut u32,
    solutions_len: usize,
    queue: *mut u32,
    queue_len: usize,
    hole: usize,
    output: *mut u32,
    output_len: usize,
) -> u64 {
    let table = from_raw_parts_mut(table, table_len);
    let solutions = from_raw_parts_mut(solutions, solutions_len);
    let queue = from_raw_parts_mut(queue, queue_len);
    let output = from_raw_parts_mut(output, output_len);
    plain::show(table, n, solutions, queue, hole, output).packed()
}

/// # Safety
/// As for `tanczotka_solve`.
#[no_mangle]
pub unsafe extern "C" fn tanczotka_read(
    file: *const u8,
    file_len: usize,
    table: *mut u32,
    table_len: usize,
) -> u64 {
    plain::read(from_raw_parts(file, file_len), from_raw_parts_mut(table, table_len)).packed()
}

/// # Safety
/// As for `tanczotka_solve`; the table is only read.
#[no_mangle]
pub unsafe extern "C" fn tanczotka_write(
    table: *const u32,
    table_len: usize,
    n: usize,
    file: *mut u8,
    file_len: usize,
) -> u64 {
    plain::write(from_raw_parts(table, table_len), n, from_raw_parts_mut(file, file_len)).packed()
}
