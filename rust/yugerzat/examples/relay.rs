//! A relay between clients that bend the rules and a server that doesn't. It takes record-marked calls from standard input
//! and passes them on to standard output, one fragment each. The header goes out in published form, and so do the arguments
//! of the procedures that the library knows; those of others go out as they came.
//!
//! ```text
//! $ cargo run --example relay < calls > clean
//! record 2: loose
//! record 3: loose
//! record 4: refused: refusal 2 at place 24: a number that must be declared is not
//! record 5: refused: refusal 8: a REPLY reached the choice of program
//! record 6: refused: refusal 1 at place 48: the message ends inside an item, 8 bytes are wanting
//! ```
//!
//! The second call has dirty padding behind its credential. The third is a SETATTR that sets the size with a flag of
//! `FFFFFFFF`. The fourth has a credential of flavor 6, `RPCSEC_GSS`, which the library refuses; the fifth is a reply; the
//! sixth is a READ without an offset. What is refused is not passed on, and then the relay ends with 1. A header does not
//! cover the inside of a credential: see the example `pass_setattr` for that.
use std::io::{self, BufReader, Read, Write};
use std::process::ExitCode;

use yugerzat::{append_fragment, append_rewriting, Body, Message, Records, Refusal};

/// A call as it is passed on, and whether its header and its arguments were plain.
fn clean(record: &[u8]) -> Result<(Vec<u8>, bool), Refusal> {
    let header = Message::read(record, 0)?;
    let (mut next, mut plain) = (header.next, header.plain);
    let call = match header.value.body {
        Body::Call(call) => call,
        Body::Reply(_) => return Err(Refusal::ReplyCame),
    };
    let (mut message, mut out) = (Vec::new(), Vec::new());
    call.append(header.value.xid, &mut message)?;
    if let Some(procedure) = call.procedure() {
        let arguments = append_rewriting(procedure.arguments(), record, next, &mut message)?;
        next = arguments.next;
        plain &= arguments.plain;
    }
    message.extend_from_slice(&record[next..]);
    append_fragment(&message, &mut out)?;
    Ok((out, plain))
}

/// Passes the calls on, and says which are loose or refused. Gives whether all were passed on.
pub fn relay(calls: impl Read, out: &mut impl Write, says: &mut impl Write) -> io::Result<bool> {
    let mut all = true;
    for (record, number) in Records::new(BufReader::new(calls)).zip(1..) {
        match clean(&record?) {
            Ok((call, plain)) => {
                out.write_all(&call)?;
                if !plain {
                    writeln!(says, "record {number}: loose")?;
                }
            },
            Err(refusal) => {
                all = false;
                writeln!(says, "record {number}: refused: {refusal}")?;
            },
        }
    }
    out.flush()?;
    Ok(all)
}

fn main() -> ExitCode {
    match relay(io::stdin().lock(), &mut io::stdout().lock(), &mut io::stderr()) {
        Ok(true) => ExitCode::SUCCESS,
        Ok(false) => ExitCode::FAILURE,
        Err(error) => {
            eprintln!("relay: {error}");
            ExitCode::FAILURE
        },
    }
}
