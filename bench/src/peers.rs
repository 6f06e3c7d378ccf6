//! Before anything is timed: what the peers' encoders make of arguments and results must be plain to the library, which must
//! use exactly their bytes and rewrite them to the same.
use std::collections::BTreeSet;

use crate::outside::*;

/// The values of values.h: eight forms, with each of 28 failures.
const VALUES: u32 = 8 * 28;
const ROOM: usize = 1024;

type Make = unsafe extern "C" fn(u32, *mut u8, usize) -> u32;

/// The messages that a peer makes of all values of a kind, each once.
fn made(make: Make) -> Result<BTreeSet<Vec<u8>>, String> {
    let message = |which| {
        let mut out = vec![0xEE; ROOM];
        // SAFETY: the address comes with the length of what lies there.
        let used = unsafe { make(which, out.as_mut_ptr(), out.len()) };
        out.truncate(used as usize);
        if used > 0 {
            Ok(out)
        } else {
            Err(format!("value {which} of values.h is not encoded"))
        }
    };
    (0..VALUES).map(message).collect()
}

/// What the library answers for a message that has other bytes behind it.
fn taken(kind: u32, message: &[u8]) -> Result<(), String> {
    let (count, src) = (message.len() as u64, [message, &[0xEE; 8]].concat());
    let (p, n) = (src.as_ptr(), src.len());
    let (mut judged, mut rewritten, mut out) = ([0; 3], [0; 3], vec![0xEE; n]);
    // SAFETY: every address comes with the length of what lies there.
    let judging = unsafe { yugerzat_judge(kind, p, n, 0, judged.as_mut_ptr(), 3) };
    // SAFETY: as above.
    let rewriting = unsafe { yugerzat_rewrite(kind, p, n, 0, out.as_mut_ptr(), n, rewritten.as_mut_ptr(), 3) };
    // The next place, plain, and the size.
    let due = [count, 1, count];
    for (what, answer, figures) in [("judging", judging, judged), ("rewriting", rewriting, rewritten)] {
        if answer != 0 || figures != due {
            return Err(format!("{what} answers {answer} with {figures:?}, where 0 with {due:?} is due"));
        }
    }
    // The room had the same bytes behind it.
    if out == src {
        Ok(())
    } else {
        Err(format!("it is rewritten, in a room full of EE, to {}", hex(&out)))
    }
}

fn hex(bytes: &[u8]) -> String {
    bytes.iter().map(|b| format!("{b:02X}")).collect()
}

/// The number and name of each kind, and who makes it.
macro_rules! kinds {
    ($(yugerzat_rewrite($kind:literal, $name:ident) by $tirpc:ident $libnfs:ident;)*) => {
        [$(($kind, stringify!($name), [("libtirpc", $tirpc as Make), ("libnfs", $libnfs as Make)])),*]
    };
}

/// Looks at all that the peers make, and says how many messages that were, or what is wrong.
pub fn plain_to_us() -> Result<u64, String> {
    let kinds = kinds! {
        yugerzat_rewrite(47, stable_how) by tirpc_make_stable_how libnfs_make_stable_how;
        yugerzat_rewrite(48, sattrguard3) by tirpc_make_sattrguard3 libnfs_make_sattrguard3;
        yugerzat_rewrite(49, getattr3args) by tirpc_make_getattr3args libnfs_make_getattr3args;
        yugerzat_rewrite(50, getattr3res) by tirpc_make_getattr3res libnfs_make_getattr3res;
        yugerzat_rewrite(51, setattr3args) by tirpc_make_setattr3args libnfs_make_setattr3args;
        yugerzat_rewrite(52, setattr3res) by tirpc_make_setattr3res libnfs_make_setattr3res;
        yugerzat_rewrite(53, lookup3args) by tirpc_make_lookup3args libnfs_make_lookup3args;
        yugerzat_rewrite(54, lookup3res) by tirpc_make_lookup3res libnfs_make_lookup3res;
        yugerzat_rewrite(55, read3args) by tirpc_make_read3args libnfs_make_read3args;
        yugerzat_rewrite(56, read3res) by tirpc_make_read3res libnfs_make_read3res;
        yugerzat_rewrite(57, write3args) by tirpc_make_write3args libnfs_make_write3args;
        yugerzat_rewrite(58, write3res) by tirpc_make_write3res libnfs_make_write3res;
        yugerzat_rewrite(70, exports) by tirpc_make_exports libnfs_make_exports;
    };
    let mut count = 0;
    for (kind, name, makers) in kinds {
        for (who, make) in makers {
            for message in made(make).map_err(|why| format!("{name} by {who}: {why}"))? {
                taken(kind, &message).map_err(|why| format!("{name} {} by {who}: {why}", hex(&message)))?;
                count += 1;
            }
        }
    }
    Ok(count)
}
