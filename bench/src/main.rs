//! Times the proved library against a hand-written C floor, the crate nfsserve, libtirpc and libnfs. bench/run builds and
//! starts it.
mod contestants;
mod duty;
mod lists;
mod measure;
mod messages;
mod outside;
mod peers;
mod rows;
mod table;
mod varied;

use std::env;
use std::ffi::CString;
use std::process::ExitCode;

use contestants::begin;
use lists::{copy_rows, list_rows};
use measure::Row;
use outside::{count_begin, count_end, tirpc_stack};
use rows::{message_rows, rows};

const PASSES: u32 = 10;
const SAMPLES: u32 = 100;
/// One of a list takes as long as many of the others.
const LIST_SAMPLES: u32 = 15;

fn main() -> ExitCode {
    let words: Vec<String> = env::args().skip(1).collect();
    let words: Vec<&str> = words.iter().map(String::as_str).collect();
    match words[..] {
        ["time"] => {
            if let Err(why) = time() {
                eprintln!("bench: {why}");
                return ExitCode::FAILURE;
            }
        },
        ["count"] => count(),
        ["counted", folder] => table::instructions(&rows(), folder),
        _ => {
            eprintln!("bench: time | count | counted FOLDER");
            return ExitCode::from(2);
        },
    }
    ExitCode::SUCCESS
}

fn time() -> Result<(), String> {
    eprintln!("bench: comparing the floor with the library ..");
    let compared = duty::same_duty();
    eprintln!("bench: {compared} answers of the floor are those of the library");
    let made = peers::plain_to_us()?;
    eprintln!("bench: {made} messages of libtirpc and libnfs are plain to the library, and rewritten to the same bytes");
    let exports = messages::short_exports(80_000);
    // SAFETY: the address comes with the length of what lies there.
    let stack = unsafe { tirpc_stack(exports.as_ptr(), exports.len()) };
    eprintln!("bench: libtirpc decodes 80,000 exports in {stack} bytes of stack");
    let mut rows = rows();
    for pass in 1..=PASSES {
        eprintln!("bench: timing, pass {pass} of {PASSES} ..");
        for row in &mut rows {
            row.time(if row.bytes.is_some() { LIST_SAMPLES } else { SAMPLES });
        }
    }
    table::times(&rows);
    Ok(())
}

/// Under callgrind: each contestant once warm, then so many times over its messages between two marks. Lists come last: what
/// peers free of them leaves malloc much to put in order, which would be counted with the other rows.
fn count() {
    let m = begin();
    for (rows, rounds) in [(message_rows as fn(_) -> _, 1), (copy_rows, 4), (list_rows, 1)] {
        for row in rows(m).into_iter().filter(|row| !row.shorter) {
            count_row(row, rounds);
        }
    }
}

fn count_row(mut row: Row, rounds: u32) {
    (row.ready)();
    let messages = rounds as usize * row.count;
    for contestant in &mut row.contestants {
        let mark = |name: &str| CString::new(name).expect("a name has no zero");
        let (name, idle) = (format!("{}|{}|{messages}", row.name, contestant.who as u32), mark("-"));
        let name = mark(&name);
        (contestant.run)(1);
        // SAFETY: the marks take a string and touch nothing else.
        unsafe { count_begin() };
        (contestant.run)(rounds);
        // SAFETY: as above.
        unsafe {
            count_end(name.as_ptr());
            count_end(idle.as_ptr());
        }
    }
}
