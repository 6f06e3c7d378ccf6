//! Rows of export lists, and of long copies. Each has one message, whose bytes take the time.
use std::hint::black_box;

use crate::contestants::*;
use crate::measure::{contestant, Row, Who};
use crate::messages;
use crate::outside::*;
use crate::varied::alone;

pub const BLOCK: usize = 65_536;
const RECORD: usize = 1_048_576;

/// So many bytes that are not all alike.
pub fn some(count: usize) -> Vec<u8> {
    (0..count).map(|n| (n * 31 % 251) as u8).collect()
}

// ---- export lists

/// Of each list that is timed, a shorter one comes first.
pub fn list_rows(m: Memory) -> Vec<Row> {
    let mut rows = Vec::new();
    let short = |label, n| exports(m, label, messages::short_exports(n), Held { entries: n, names: 0, text: n / 4 * 3 });
    let grouped = |label, n| exports(m, label, messages::grouped_exports(n), Held { entries: n, names: n, text: n * 12 });
    for (lesser, longer) in [
        (short("10,000 exports", 10_000), short("80,000 exports", 80_000)),
        (grouped("4,000 with groups", 4_000), grouped("32,000 with groups", 32_000)),
    ] {
        for (lesser, longer) in lesser.into_iter().zip(longer) {
            rows.push(Row { shorter: true, ..lesser });
            rows.push(longer);
        }
    }
    rows
}

/// What an export list holds: entries, names of groups, and bytes in its paths and names.
#[derive(Clone, Copy, PartialEq, Eq, Debug)]
struct Held {
    entries: usize,
    names: usize,
    text: usize,
}

/// Functions that walk an export list: it is read, and then each entry, and each name of its groups. They must find what it
/// holds.
macro_rules! walks {
    ($who:expr, $m:ident, $src:ident, $held:ident, $read:ident $next_export:ident $next_group:ident) => {{
        let (src, len) = ($src.as_ptr(), $src.len());
        let (list, entry, name) = ($m.info, $m.info.wrapping_add(4), $m.info.wrapping_add(11));
        contestant($who, 1, move |_| {
            let mut found = Held { entries: 0, names: 0, text: 0 };
            // SAFETY: every address comes with the length of what lies there, and the three lists of figures lie apart.
            let refused = unsafe {
                let mut refused = $read(src, len, 0, list, 4);
                let mut at = *list.add(2) as usize;
                for _ in 0..*list.add(3) {
                    refused |= $next_export(src, len, at, entry, 7);
                    at = *entry as usize;
                    found.entries += 1;
                    found.text += *entry.add(4) as usize;
                    let mut place = *entry.add(5) as usize;
                    for _ in 0..*entry.add(6) {
                        refused |= $next_group(src, len, place, name, 5);
                        place = *name as usize;
                        found.names += 1;
                        found.text += *name.add(4) as usize;
                    }
                }
                refused
            };
            assert_eq!((refused, found), (0, $held), stringify!($next_export));
        })
    }};
}

/// Rows of an export list. Beside "judged" the peers read and free; beside "walked" they follow their pointers besides.
fn exports(m: Memory, label: &str, exports: Vec<u8>, held: Held) -> [Row; 4] {
    let set = alone(exports);
    let exports = set.came[0];
    let (src, len, entries, all) = (exports.as_ptr(), exports.len(), held.entries, (held.entries + held.names) as u32);
    let row = |work, contestants| Row { bytes: Some(len), ..Row::new(format!("{label} {work}").leak(), 1, contestants) };
    // SAFETY: every address comes with the length of what lies there, here and in what follows.
    let ready = move || unsafe {
        assert!(tirpc_hold_exports(src, len) == len as u32 && libnfs_hold_exports(src, len) == len as u32);
    };
    let walk = |who, walk: unsafe extern "C" fn(*const u8, usize) -> u32| {
        contestant(who, 1, move |_| assert_eq!(unsafe { walk(src, len) }, all))
    };
    let judged = vec![
        judges(Who::Ours, m, set, move |_| unsafe { yugerzat_judge(70, src, len, 0, m.info, 3) }),
        judges(Who::Floor, m, set, move |_| unsafe { floor_judge(70, src, len, 0, m.info, 3) }),
        reads(Who::Libtirpc, m, set, move |_| unsafe { tirpc_read_exports(src, len) }),
        reads(Who::Libnfs, m, set, move |_| unsafe { libnfs_read_exports(src, len) }),
    ];
    let walked = vec![
        walks!(Who::Ours, m, exports, held, yugerzat_read_exports yugerzat_next_export yugerzat_next_group),
        walks!(Who::Floor, m, exports, held, floor_read_exports floor_next_export floor_next_group),
        walk(Who::Libtirpc, tirpc_walk_exports),
        walk(Who::Libnfs, libnfs_walk_exports),
    ];
    ready();
    let written = vec![
        writes(Who::Ours, m, set, move |_| unsafe {
            yugerzat_write_exports(src, len, 0, entries, m.out, ROOM, 0, m.info, 1)
        }),
        writes(Who::Floor, m, set, move |_| unsafe { floor_write_exports(src, len, 0, entries, m.out, ROOM, 0, m.info, 1) }),
        writes(Who::Libtirpc, m, set, move |_| unsafe { tirpc_write_exports(m.out, ROOM) }),
        writes(Who::Libnfs, m, set, move |_| unsafe { libnfs_write_exports(m.out, ROOM) }),
    ];
    let rewritten = vec![
        rewrites(Who::Ours, m, set, move |exports| unsafe {
            yugerzat_rewrite(70, exports.as_ptr(), len, 0, m.out, ROOM, m.info, 3)
        }),
        rewrites(Who::Floor, m, set, move |_| unsafe { floor_rewrite(70, src, len, 0, m.out, ROOM, m.info, 3) }),
        rewrites(Who::Libtirpc, m, set, move |_| unsafe { tirpc_copy_exports(src, len, m.out, ROOM) }),
        rewrites(Who::Libnfs, m, set, move |_| unsafe { libnfs_copy_exports(src, len, m.out, ROOM) }),
    ];
    [row("judged", judged), row("walked", walked), row("written", written).ready_by(ready), row("rewritten", rewritten)]
}

// ---- copies

#[inline(never)]
fn memcpy(src: &[u8], out: *mut u8) {
    // SAFETY: the room is larger than any message, and lies apart.
    unsafe { std::ptr::copy_nonoverlapping(src.as_ptr(), out, src.len()) }
    black_box(out);
}

/// Rows whose floor is memcpy, from and to the same places.
pub fn copy_rows(m: Memory) -> Vec<Row> {
    let block: &'static [u8] = Vec::leak(some(BLOCK));
    let copied = |src: &'static [u8], to: usize| {
        // SAFETY: the place lies in the room.
        let out = unsafe { m.out.add(to) };
        contestant(Who::Floor, 1, move |_| memcpy(black_box(src), out))
    };
    let set = alone(messages::opaque(block));
    let record = (RECORD as u32 | 1 << 31).to_be_bytes();
    let stream: &'static [u8] = Vec::leak([&record[..], &some(RECORD)].concat());

    let feed = contestant(Who::Ours, 1, move |_| {
        // SAFETY: every address comes with the length of what lies there.
        let answer = unsafe {
            *m.state = RECORD as u64;
            yugerzat_feed(m.state, 7, stream.as_ptr(), stream.len(), m.out, RECORD, m.info, 2)
        };
        // Complete; the state is then fresh.
        assert_eq!(answer, 104);
    });
    // SAFETY: every address comes with the length of what lies there, here and in what follows.
    let fragment = contestant(Who::Ours, 1, move |_| unsafe {
        assert_eq!(yugerzat_fragment(block.as_ptr(), block.len(), m.out, ROOM, 0, m.info, 1), 0);
    });
    let opaque = vec![
        rewrites(Who::Ours, m, set, move |opaque| unsafe {
            yugerzat_rewrite(6, opaque.as_ptr(), opaque.len(), 0, m.out, ROOM, m.info, 3)
        }),
        copied(&set.came[0][4..], 4),
        nfsserve_copies::<Vec<u8>>(set),
        rewrites(Who::Libtirpc, m, set, move |src| unsafe { tirpc_copy_opaque(src.as_ptr(), src.len(), m.out, ROOM) }),
        rewrites(Who::Libnfs, m, set, move |src| unsafe { libnfs_copy_opaque(src.as_ptr(), src.len(), m.out, ROOM) }),
    ];
    let rows = [
        Row::new("record of 1 MiB assembled", 1, vec![feed, copied(&stream[4..], 0)]),
        Row::new("opaque of 64 KiB rewritten", 1, opaque),
        Row::new("fragment of 64 KiB written", 1, vec![fragment, copied(block, 4)]),
    ];
    rows.map(|row| Row { copying: true, ..row }).into()
}
