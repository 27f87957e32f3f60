//! A small safe wrapper over the solver's four C functions.
//!
//! All memory is lent by the caller as slices of any length; `include/tanczotka.h` says what is left in them.
//! This solves `\x.U[x] = \x.f x` and shows what the hole U, record 4, stands for:
//!
//! ```
//! use tanczotka::{read, show, solve, text, write_to_vec};
//!
//! let none = u32::MAX;
//! let records: [(&[u8; 2], u32, u32, u32); 14] = [
//!     (b"BT", 0, 0, 0),
//!     (b"AR", 0, 0, 0),
//!     (b"KO", 1, 0, 0),
//!     (b"CE", 0, none, 0),
//!     (b"HO", 3, 0, 0),
//!     (b"VA", 0, none, 0),
//!     (b"CE", 5, none, 0),
//!     (b"HA", 4, 6, 0),
//!     (b"LA", 7, 0, 0),
//!     (b"VA", 0, none, 0),
//!     (b"CE", 9, none, 0),
//!     (b"CA", 2, 10, 0),
//!     (b"LA", 11, 0, 0),
//!     (b"EQ", 8, 12, 1),
//! ];
//! let mut file = Vec::new();
//! for (mark, a, b, c) in records {
//!     file.extend(mark);
//!     for field in [a, b, c] {
//!         file.extend(field.to_le_bytes());
//!     }
//! }
//!
//! let mut table = [0; 4 * 64];
//! let n = read(&file, &mut table).used.into();
//! assert_eq!(write_to_vec(&table, n), Ok(file));
//! let (mut solutions, mut queue, mut output) = ([0; 64], [0; 2 * 16], [0; 4 * 16]);
//!
//! let reply = solve(&mut table, n, &mut solutions, &mut queue);
//! assert_eq!((reply.answer, reply.place, reply.used), (0, 0, 17));
//!
//! let reply = show(&mut table, n, &mut solutions, &mut queue, 4, &mut output);
//! assert_eq!((reply.answer, reply.used), (0, 3));
//! let answer = text(&output, reply.used.into()).unwrap();
//! println!("h4 = {answer}");
//! assert_eq!(answer, "c2(v0)");
//! ```

mod reply;
mod text;

pub use reply::Reply;
pub use text::text;

/// The word that stands for "no record".
pub const NONE: u32 = u32::MAX;

/// The most records that a problem file can have, and the bytes of each.
const FILE_RECORDS: usize = 2048;
const RECORD_BYTES: usize = 14;

extern "C" {
    fn tanczotka_solve(
        table: *mut u32,
        table_len: usize,
        n: usize,
        solutions: *mut u32,
        solutions_len: usize,
        queue: *mut u32,
        queue_len: usize,
    ) -> u64;

    fn tanczotka_show(
        table: *mut u32,
        table_len: usize,
        n: usize,
        solutions: *mut u32,
        solutions_len: usize,
        queue: *mut u32,
        queue_len: usize,
        hole: usize,
        output: *mut u32,
        output_len: usize,
    ) -> u64;

    fn tanczotka_read(file: *const u8, file_len: usize, table: *mut u32, table_len: usize) -> u64;

    fn tanczotka_write(table: *const u32, table_len: usize, n: usize, file: *mut u8, file_len: usize) -> u64;
}

/// Solves the problem in the first `n` records of the table.
#[inline]
pub fn solve(table: &mut [u32], n: usize, solutions: &mut [u32], queue: &mut [u32]) -> Reply {
    // SAFETY: pointers and lengths are those of slices that are ours alone during the call; a slice's pointer is
    // aligned and never null, also of an empty one; the library touches no word outside what is lent.
    let packed = unsafe {
        tanczotka_solve(
            table.as_mut_ptr(),
            table.len(),
            n,
            solutions.as_mut_ptr(),
            solutions.len(),
            queue.as_mut_ptr(),
            queue.len(),
        )
    };
    Reply::of_packed(packed)
}

/// Solves, then writes the answer of one input hole into the output.
#[inline]
pub fn show(
    table: &mut [u32],
    n: usize,
    solutions: &mut [u32],
    queue: &mut [u32],
    hole: usize,
    output: &mut [u32],
) -> Reply {
    // SAFETY: as in `solve`.
    let packed = unsafe {
        tanczotka_show(
            table.as_mut_ptr(),
            table.len(),
            n,
            solutions.as_mut_ptr(),
            solutions.len(),
            queue.as_mut_ptr(),
            queue.len(),
            hole,
            output.as_mut_ptr(),
            output.len(),
        )
    };
    Reply::of_packed(packed)
}

/// Reads a problem file's records into the table.
#[inline]
pub fn read(file: &[u8], table: &mut [u32]) -> Reply {
    // SAFETY: as in `solve`; the file is only read.
    let packed = unsafe { tanczotka_read(file.as_ptr(), file.len(), table.as_mut_ptr(), table.len()) };
    Reply::of_packed(packed)
}

/// Writes the first `n` records of the table as a problem file, whose bytes are the file's first.
#[inline]
pub fn write(table: &[u32], n: usize, file: &mut [u8]) -> Reply {
    // SAFETY: as in `solve`; the table is only read.
    let packed = unsafe { tanczotka_write(table.as_ptr(), table.len(), n, file.as_mut_ptr(), file.len()) };
    Reply::of_packed(packed)
}

/// The first `n` records of the table as a problem file, or why they are not written.
#[inline]
pub fn write_to_vec(table: &[u32], n: usize) -> Result<Vec<u8>, Reply> {
    let mut file = vec![0; RECORD_BYTES * n.min(FILE_RECORDS)];
    let reply = write(table, n, &mut file);
    if reply.answer == 0 {
        Ok(file)
    } else {
        Err(reply)
    }
}
