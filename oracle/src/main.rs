//! The differential oracle: the proved library and nfsserve 0.11.0, asked the same and compared. See README.md.
mod answers;
mod captured;
mod cases;
mod compare;
mod lent;
mod limits;
mod lines;
mod list;
mod model;
mod mounted;
mod odd;
mod proved;
mod questions;
mod random;
mod run;
mod shapes;
mod tally;
mod truth;
mod values;
mod wanting;
mod yielded;

use std::io::{BufRead, BufWriter, Write};
use std::panic::{catch_unwind, AssertUnwindSafe};
use std::path::Path;
use std::process::ExitCode;

fn main() -> ExitCode {
    let arguments: Vec<String> = std::env::args().skip(1).collect();
    let arguments: Vec<&str> = arguments.iter().map(String::as_str).collect();
    match arguments[..] {
        ["compare", count, seed] => match (count.parse(), seed.parse()) {
            (Ok(count), Ok(seed)) => ExitCode::from(u8::from(run::run(count, seed) != 0)),
            _ => usage(),
        },
        ["faults"] => print(model::Fault::ALL.iter().map(|(_, name)| *name)),
        ["odd", count, seed] => match (count.parse(), seed.parse()) {
            (Ok(count), Ok(seed)) => print(odd::lines(count, seed)),
            _ => usage(),
        },
        ["list", captures] => match list::lines(Path::new(captures)) {
            Ok(lines) => print(lines),
            Err(error) => {
                eprintln!("oracle: the captures in {captures} cannot be read: {error}");
                ExitCode::FAILURE
            },
        },
        ["limits"] => print(limits::lines()),
        ["answer"] => print(answers_to(std::io::stdin().lock())),
        _ => usage(),
    }
}

/// The answers to the lines of an input, which may be any bytes. What a side is sure of may fail: no answer is known then,
/// and the next line is answered all the same.
fn answers_to(input: impl BufRead) -> impl Iterator<Item = String> {
    let mut truth = truth::Truth::new();
    input.split(b'\n').map_while(Result::ok).map(move |line| {
        catch_unwind(AssertUnwindSafe(|| questions::answer(&mut truth, &line))).unwrap_or_else(|_| {
            truth = truth::Truth::new();
            String::from("broke off")
        })
    })
}

fn print<T: AsRef<[u8]>>(lines: impl IntoIterator<Item = T>) -> ExitCode {
    let mut out = BufWriter::new(std::io::stdout().lock());
    for line in lines {
        out.write_all(line.as_ref()).and_then(|()| out.write_all(b"\n")).expect("standard output can be written");
    }
    out.flush().expect("standard output can be written");
    ExitCode::SUCCESS
}

fn usage() -> ExitCode {
    eprintln!(
        "oracle compare COUNT SEED    compare that many cases\n\
         oracle faults                print the names of the faults that can be planted in the model\n\
         oracle list CAPTURES         print the chosen lines, those of the captures in that folder among them\n\
         oracle limits                print what the program `limits` must print\n\
         oracle odd COUNT SEED        print odd lines, and as many random ones, most of them damaged\n\
         oracle answer                answer the lines of standard input from the crate and the model"
    );
    ExitCode::from(2)
}
