//! Passes a SETATTR of an old client on, clean: header, credential and arguments, each read as it was meant and written in
//! published form. The client sets the size with a flag of `FFFFFFFF`, and leaves rubbish in the padding behind its
//! machine's name.
//!
//! ```text
//! $ cargo run --example pass_setattr
//! call 42: SETATTR, by uid 1000 on old
//! change: size becomes 0
//! as it came:
//!   0000002a 00000000 00000002 000186a3 00000003 00000002 00000001 00000018
//!   00000007 00000003 6f6c64ff 000003e8 00000064 00000000 00000000 00000000
//!   00000004 0a0b0c0d 00000000 00000000 00000000 ffffffff 00000000 00000000
//!   00000000 00000000 00000000
//! as it leaves:
//!   0000002a 00000000 00000002 000186a3 00000003 00000002 00000001 00000018
//!   00000007 00000003 6f6c6400 000003e8 00000064 00000000 00000000 00000000
//!   00000004 0a0b0c0d 00000000 00000000 00000000 00000001 00000000 00000000
//!   00000000 00000000 00000000
//! ```
use std::error::Error;
use std::io::{self, Write};

use yugerzat::{AuthFlavor, AuthUnix, Body, Message, Procedure, Setattr3args};

const CAME: [u32; 27] = [
    42, 0, 2, 100_003, 3, 2, // xid 42, CALL, RPC version 2, NFS version 3, SETATTR
    1, 24, 7, 3, 0x6F6C_64FF, 1000, 100, 0, // AUTH_UNIX: stamp, name "old" and a dirty byte, uid, gid, no groups
    0, 0, // no verifier
    4, 0x0A0B_0C0D, // the file's handle
    0, 0, 0, 0xFFFF_FFFF, 0, 0, 0, 0, // mode, uid, gid stay; the size is set, to 0; the times stay
    0, // no guard
];

/// The call as it leaves. What it is about is said.
pub fn pass(came: &[u8], says: &mut impl Write) -> Result<Vec<u8>, Box<dyn Error>> {
    let mut out = Vec::new();

    // The header. Its credential is opaque there, and is cleaned by itself; the call is written with the clean one.
    let header = Message::read(came, 0)?;
    let mut call = match header.value.body {
        Body::Call(call) if call.procedure() == Some(Procedure::Setattr) => call,
        _ => return Err("this is no SETATTR".into()),
    };
    let mut credential = Vec::new();
    write!(says, "call {}: {}", header.value.xid, Procedure::Setattr)?;
    if call.cred.flavor == AuthFlavor::Unix {
        let caller = AuthUnix::read(call.cred.body)?.value;
        caller.append(&mut credential)?;
        call.cred.body = &credential;
        write!(says, ", by uid {} on {}", caller.uid, String::from_utf8_lossy(caller.machinename))?;
    }
    writeln!(says)?;
    call.append(header.value.xid, &mut out)?;

    // The arguments: the handle of a file, what to change, and perhaps a guard.
    let arguments = Setattr3args::read(came, header.next)?.value;
    if let Some(size) = arguments.new_attributes.size {
        writeln!(says, "change: size becomes {size}")?;
    }
    if let Some(ctime) = arguments.guard {
        writeln!(says, "guard: only if nothing changed since {}.{:09}", ctime.seconds, ctime.nseconds)?;
    }
    arguments.append(&mut out)?;
    Ok(out)
}

/// Passes the call above on, and says how it came and how it leaves.
pub fn show(says: &mut impl Write) -> Result<(), Box<dyn Error>> {
    let came: Vec<u8> = CAME.iter().flat_map(|word| word.to_be_bytes()).collect();
    let leaves = pass(&came, says)?;
    for (title, message) in [("as it came:", &came), ("as it leaves:", &leaves)] {
        writeln!(says, "{title}")?;
        for line in message.chunks(32) {
            let words = line.chunks(4).map(|word| word.iter().map(|byte| format!("{byte:02x}")).collect::<String>());
            writeln!(says, "  {}", words.collect::<Vec<_>>().join(" "))?;
        }
    }
    Ok(())
}

fn main() -> Result<(), Box<dyn Error>> {
    show(&mut io::stdout().lock())
}
