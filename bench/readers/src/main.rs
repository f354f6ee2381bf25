//! Gets by readers beside writers over a table under one `RwLock`, and gets of one thread by the hash index alone.

mod table;

use std::process::ExitCode;
use std::sync::RwLock;
use std::thread;
use std::time::{Duration, Instant};
use table::{Random, Row, Table};

const USAGE: &str = "readers_rs (READERS WRITERS MILLISECONDS | index MILLISECONDS): a table of 40000 rows in 65536 slots, under a RwLock, or read by one thread with no lock";

/// Does it until the time is over, so often between two looks at the clock, and counts how often it was done.
fn count(span: Duration, batch: u64, mut act: impl FnMut() -> bool) -> u64 {
    let start = Instant::now();
    let mut times = 0;
    while start.elapsed() < span {
        for _ in 0..batch {
            times += u64::from(act());
        }
    }
    times
}

/// So many gets are made between two looks at the clock.
const GETS: u64 = 256;

/// Whether there is a row. All its numbers are looked at: their sum is 1 or more.
fn is_found(row: Option<Row>) -> bool {
    row.is_some_and(|row| row.iter().sum::<i64>() > 0)
}

fn gets(table: &RwLock<Table>, seed: u64, span: Duration) -> u64 {
    let mut random = Random(seed);
    count(span, GETS, || {
        let id = random.id();
        let row = table.read().unwrap().get(id);
        is_found(row)
    })
}

fn updates(table: &RwLock<Table>, seed: u64, span: Duration) -> u64 {
    let mut random = Random(seed);
    count(span, 1, || {
        let row = random.row();
        let id = random.id();
        table.write().unwrap().update(id, row)
    })
}

/// The gets and the updates that so many readers and writers make at once.
fn under_the_lock(readers: u64, writers: u64, span: Duration) -> (u64, u64) {
    let table = RwLock::new(Table::new());
    thread::scope(|scope| {
        let table = &table;
        let reading: Vec<_> = (1..=readers)
            .map(|seed| scope.spawn(move || gets(table, seed, span)))
            .collect();
        let writing: Vec<_> = (1..=writers)
            .map(|seed| scope.spawn(move || updates(table, readers + seed, span)))
            .collect();
        let sum = |threads: Vec<thread::ScopedJoinHandle<u64>>| {
            threads
                .into_iter()
                .map(|thread| thread.join().unwrap())
                .sum()
        };
        (sum(reading), sum(writing))
    })
}

/// The gets that one thread makes with no lock.
fn by_the_index(span: Duration) -> (u64, u64) {
    let table = Table::new();
    let mut random = Random(1);
    (count(span, GETS, || is_found(table.get(random.id()))), 0)
}

fn main() -> ExitCode {
    let words: Vec<String> = std::env::args().skip(1).collect();
    let numbers: Vec<u64> = words.iter().filter_map(|word| word.parse().ok()).collect();
    let milliseconds = *numbers.last().unwrap_or(&0);
    let span = Duration::from_millis(milliseconds);
    let (gets, updates) = match numbers[..] {
        [_] if words[0] == "index" => by_the_index(span),
        [readers, writers, _] => under_the_lock(readers, writers, span),
        _ => {
            println!("{USAGE}");
            return ExitCode::from(2);
        }
    };
    println!("Gets a second: {}", gets * 1000 / milliseconds.max(1));
    println!("Updates a second: {}", updates * 1000 / milliseconds.max(1));
    ExitCode::SUCCESS
}
