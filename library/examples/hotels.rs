//! The same live table of hotels from plain Rust: rustc -L library/out -l prefq hotels.rs
use std::ffi::{c_char, c_int, CStr};

#[repr(C)]
struct Refusal {
    kind: c_int,
    number: i32,
    place: i64,
    row: i64,
    amount: u64,
    text: *const c_char,
}

#[link(name = "prefq")]
unsafe extern "C" {
    fn prefq_open(columns: *const u8, length: usize, values: *const i64, rows: usize, width: usize, setup: *const u32, table: *mut *mut u8) -> c_int;
    fn prefq_insert(table: *mut u8, values: *const i64, width: usize, id: *mut u64) -> c_int;
    fn prefq_ask(table: *mut u8, client: u32, question: *const u8, length: usize, answer: *mut *const i64, count: *mut usize) -> c_int;
    fn prefq_close(table: *mut u8);
    fn prefq_last_refusal() -> *const Refusal;
}

/// A table, which ends where it is dropped.
struct Table(*mut u8);

impl Table {
    fn open(columns: &str, rows: &[i64], width: usize) -> Result<Table, String> {
        let mut table = std::ptr::null_mut();
        let count = rows.len() / width;
        done(unsafe { prefq_open(columns.as_ptr(), columns.len(), rows.as_ptr(), count, width, std::ptr::null(), &mut table) })?;
        Ok(Table(table))
    }

    fn insert(&mut self, row: &[i64]) -> Result<u64, String> {
        let mut id = 0;
        done(unsafe { prefq_insert(self.0, row.as_ptr(), row.len(), &mut id) })?;
        Ok(id)
    }

    /// The answer: rows of a level, an id and values. It is the table's until its next question, so it borrows the table.
    fn ask(&mut self, question: &str) -> Result<&[i64], String> {
        let (mut answer, mut count) = (std::ptr::null(), 0);
        done(unsafe { prefq_ask(self.0, 1, question.as_ptr(), question.len(), &mut answer, &mut count) })?;
        Ok(if count == 0 { &[] } else { unsafe { std::slice::from_raw_parts(answer, count * 4) } })
    }
}

impl Drop for Table {
    fn drop(&mut self) {
        unsafe { prefq_close(self.0) }
    }
}

/// What a call is refused with.
fn done(result: c_int) -> Result<(), String> {
    match result {
        0 => Ok(()),
        _ => Err(unsafe { CStr::from_ptr((*prefq_last_refusal()).text) }.to_string_lossy().into_owned()),
    }
}

fn main() -> Result<(), String> {
    let mut hotels = Table::open("price,dist", &[50, 8, 80, 2, 90, 9], 2)?;
    println!("hotel {} is new", hotels.insert(&[55, 1])?);
    for row in hotels.ask("best low(price) * low(dist)")?.chunks(4) {
        println!("hotel {} at {}, {} minutes away", row[1], row[2], row[3]);
    }
    println!("{}", hotels.ask("best low(prise)").unwrap_err());
    Ok(())
}
