//! Before anything is timed: the floor must do what our functions do, also for messages cut at every place and with
//! every word replaced by telling numbers. Else its times would say nothing.
use crate::messages;
use crate::outside::*;
use crate::varied::{self, loose_set, set, Numbers};

const TELLING: [u32; 9] = [0, 1, 2, 3, 5, 8, 0x100, 0x7FFF_FFFF, 0xFFFF_FFFF];
const ROOM: usize = 256;

/// The message, every beginning of it, itself behind another word, every replacement of one word by a telling number, and
/// every change of one bit.
fn variants(message: &[u8]) -> Vec<Vec<u8>> {
    let mut all: Vec<Vec<u8>> = (0..=message.len()).map(|n| message[..n].to_vec()).collect();
    all.push([&[0; 4], message].concat());
    for place in (0..message.len()).step_by(4) {
        for number in TELLING {
            let mut other = message.to_vec();
            other[place..place + 4].copy_from_slice(&number.to_be_bytes());
            all.push(other);
        }
    }
    for place in 0..message.len() {
        for bit in 0..8 {
            let mut other = message.to_vec();
            other[place] ^= 1 << bit;
            all.push(other);
        }
    }
    all
}

/// What a call left behind: its answer, its figures, the bytes written.
type Left<const N: usize> = (u32, [u64; 20], [u8; N]);

fn left_in<const N: usize>(call: impl FnOnce(*mut u64, *mut u8) -> u32) -> Left<N> {
    let (mut info, mut out) = ([0xEEEE; 20], [0xEE; N]);
    let answer = call(info.as_mut_ptr(), out.as_mut_ptr());
    (answer, info, out)
}

fn left(call: impl FnOnce(*mut u64, *mut u8) -> u32) -> Left<ROOM> {
    left_in(call)
}

fn same<const N: usize>(what: &str, of: &[u8], ours: &Left<N>, floor: &Left<N>) {
    assert!(ours == floor, "{what} of {of:02x?}: ours {ours:02x?}, and the floor's {floor:02x?}");
}

/// One message rewritten and judged, by the floor's functions of its kind and by those that choose by its number.
macro_rules! rewritten_one {
    ($count:ident, $kind:literal, $floor:ident and $judge:ident, $src:ident) => {
        let (p, n) = ($src.as_ptr(), $src.len());
        for at in [0, 1, 4, n, n + 1] {
            for room in [0, 23, 24, 40, 83, 84, n.saturating_sub(1), n, ROOM] {
                // SAFETY: every address comes with the length of what lies there.
                let ours = left(|info, out| unsafe { yugerzat_rewrite($kind, p, n, at, out, room, info, 3) });
                // SAFETY: as above.
                let floor = left(|info, out| unsafe { $floor(p, n, at, out, room, info, 3) });
                same(stringify!($floor), &$src, &ours, &floor);
                // SAFETY: as above.
                let chosen = left(|info, out| unsafe { floor_rewrite($kind, p, n, at, out, room, info, 3) });
                same("floor_rewrite", &$src, &ours, &chosen);
                $count += 2;
            }
            for figures in [2, 3, 20] {
                // SAFETY: as above.
                let ours = left(|info, _| unsafe { yugerzat_judge($kind, p, n, at, info, figures) });
                // SAFETY: as above.
                let floor = left(|info, _| unsafe { $judge(p, n, at, info, figures) });
                same(stringify!($judge), &$src, &ours, &floor);
                // SAFETY: as above.
                let chosen = left(|info, _| unsafe { floor_judge($kind, p, n, at, info, figures) });
                same("floor_judge", &$src, &ours, &chosen);
                $count += 2;
            }
        }
        // SAFETY: as above.
        let ours = left(|info, out| unsafe { yugerzat_rewrite($kind, p, n, 0, out, ROOM, info, 2) });
        // SAFETY: as above.
        let floor = left(|info, out| unsafe { $floor(p, n, 0, out, ROOM, info, 2) });
        same(stringify!($floor), &$src, &ours, &floor);
        $count += 1;
    };
}

macro_rules! rewritten {
    ($count:ident, $kind:literal, $floor:ident and $judge:ident, $message:expr) => {
        for src in variants(&$message) {
            rewritten_one!($count, $kind, $floor and $judge, src);
        }
    };
}

/// One message read.
macro_rules! read_one {
    ($count:ident, $ours:ident, $floor:ident, $figures:literal, $src:ident) => {
        let (p, n) = ($src.as_ptr(), $src.len());
        for at in [0, 1, 4, n, n + 1] {
            for figures in [$figures - 1, $figures, 20] {
                // SAFETY: as above.
                let ours = left(|info, _| unsafe { $ours(p, n, at, info, figures) });
                // SAFETY: as above.
                let floor = left(|info, _| unsafe { $floor(p, n, at, info, figures) });
                same(stringify!($floor), &$src, &ours, &floor);
                $count += 1;
            }
        }
    };
}

macro_rules! read {
    ($count:ident, $ours:ident, $floor:ident, $figures:literal, $message:expr) => {
        for src in variants(&$message) {
            read_one!($count, $ours, $floor, $figures, src);
        }
    };
}

/// Lists of figures: as they are, and with each figure replaced by telling numbers.
fn lists(figures: &[u64]) -> Vec<Vec<u64>> {
    let mut all = vec![figures.to_vec()];
    for place in 0..figures.len() {
        for number in [0, 1, 2, 3, 4, 7, 8, 0xFFFF_FFFF, 0x1_0000_0000, u64::MAX] {
            let mut other = figures.to_vec();
            other[place] = number;
            all.push(other);
        }
    }
    all
}

macro_rules! written {
    ($count:ident, $ours:expr, $floor:expr, $figures:expr) => {
        for list in lists(&$figures) {
            for length in [list.len() - 1, list.len()] {
                for (start, room) in [(0, ROOM), (3, ROOM), (0, 24), (0, 23), (1, 84), (5, 4), (0, 84), (0, 83)] {
                    let ours = left(|info, out| $ours(list.as_ptr(), length, out, room, start, info));
                    let floor = left(|info, out| $floor(list.as_ptr(), length, out, room, start, info));
                    assert_eq!(
                        ours,
                        floor,
                        "{} of {list:?}, {length} figures, room {room}, start {start}",
                        stringify!($ours)
                    );
                    $count += 1;
                }
            }
        }
    };
}

/// A writer as a closure over what all writers take; the sources are the messages that pieces are of, for those that have
/// any.
macro_rules! writer {
    ($function:ident $(, $source:expr)*) => {
        // SAFETY: as above.
        |fields, count, out, room, start, info| unsafe {
            $function($($source.as_ptr(), $source.len(),)* fields, count, out, room, start, info, 1)
        }
    };
}

/// Compares, and says how many answers were compared.
pub fn same_duty() -> u64 {
    let mut count = 0;
    rewritten!(count, 20, floor_copy_rpc_msg and floor_judge_rpc_msg, messages::call());
    rewritten!(count, 20, floor_copy_rpc_msg and floor_judge_rpc_msg, messages::reply(&[0, 0, 0, 2, 3, 4]));
    rewritten!(count, 20, floor_copy_rpc_msg and floor_judge_rpc_msg, messages::reply(&[1, 0, 3, 4]));
    rewritten!(count, 20, floor_copy_rpc_msg and floor_judge_rpc_msg, messages::reply(&[1, 1, 3]));
    rewritten!(count, 18, floor_copy_auth_unix and floor_judge_auth_unix, messages::auth_unix());
    rewritten!(count, 31, floor_copy_fattr3 and floor_judge_fattr3, messages::fattr3());
    rewritten!(count, 44, floor_copy_sattr3 and floor_judge_sattr3, messages::sattr3_full());
    rewritten!(count, 44, floor_copy_sattr3 and floor_judge_sattr3, messages::sattr3_empty());
    rewritten!(count, 45, floor_copy_diropargs3 and floor_judge_diropargs3, messages::diropargs3());
    rewritten!(count, 6, floor_copy_opaque and floor_judge_opaque, messages::opaque(b"hello"));
    // The library copies up to 32 bytes in one way, and more in another.
    for data in ["", "hello", "minutes-2026-11.txt", "thirty-three bytes go another way"] {
        rewritten!(count, 56, floor_copy_read3res and floor_judge_read3res, messages::read3res(data.as_bytes()));
        rewritten!(count, 57, floor_copy_write3args and floor_judge_write3args, messages::write3args(data.as_bytes()));
    }
    for src in export_lists() {
        rewritten!(count, 70, floor_copy_exports and floor_judge_exports, src);
        read!(count, yugerzat_read_exports, floor_read_exports, 4, src);
        read!(count, yugerzat_next_export, floor_next_export, 7, src);
        read!(count, yugerzat_next_group, floor_next_group, 5, src);
    }
    // The statuses that RFC 1813 declares are among these.
    for status in (0..128).chain(9_990..10_020) {
        let src = messages::read3res_failed(status);
        rewritten_one!(count, 56, floor_copy_read3res and floor_judge_read3res, src);
    }
    read!(count, yugerzat_read_rpc_msg, floor_read_rpc_msg, 14, messages::call());
    read!(count, yugerzat_read_rpc_msg, floor_read_rpc_msg, 14, messages::reply(&[0, 0, 0, 2, 3, 4]));
    read!(count, yugerzat_read_rpc_msg, floor_read_rpc_msg, 14, messages::reply(&[1, 0, 3, 4]));
    read!(count, yugerzat_read_rpc_msg, floor_read_rpc_msg, 14, messages::reply(&[1, 1, 3]));
    read!(count, yugerzat_read_fattr3, floor_read_fattr3, 19, messages::fattr3());
    read!(count, yugerzat_read_sattr3, floor_read_sattr3, 16, messages::sattr3_full());
    read!(count, yugerzat_read_sattr3, floor_read_sattr3, 16, messages::sattr3_empty());
    read!(count, yugerzat_read_diropargs3, floor_read_diropargs3, 6, messages::diropargs3());
    count += changes();
    count += lengths();
    count += timed();
    count += credentials();
    count += written_lists();
    count += long_paths();
    written!(
        count,
        writer!(yugerzat_write_fattr3),
        writer!(floor_write_fattr3),
        [2, 1, 2, 3, 4, 5, 6, 7, 8, 9, 10, 11, 12, 13, 14, 15, 16]
    );
    written!(count, writer!(yugerzat_write_sattr3), writer!(floor_write_sattr3), [1, 2, 1, 3, 1, 4, 1, 5, 2, 6, 7, 2, 8, 9]);
    written!(count, writer!(yugerzat_write_sattr3), writer!(floor_write_sattr3), [0, 2, 0, 3, 0, 4, 0, 5, 0, 6, 7, 1, 8, 9]);
    let (call, place) = (messages::call(), messages::diropargs3());
    for (first, second) in [(&call, &call), (&call, &place), (&place, &call)] {
        written!(
            count,
            writer!(yugerzat_write_diropargs3, first, second),
            writer!(floor_write_diropargs3, first, second),
            [4, 6, 20, 8]
        );
        written!(
            count,
            writer!(yugerzat_write_call, first, second),
            writer!(floor_write_call, first, second),
            [7, 2, 100_003, 3, 1, 1, 4, 9, 0, 3, 5]
        );
    }
    count
}

/// Every combination of the flags and tags of a sattr3: read, rewritten, and written.
fn changes() -> u64 {
    let mut count = 0;
    for which in 0..16 * 9 {
        let flags = [which & 1, which >> 1 & 1, which >> 2 & 1, which >> 3 & 1];
        let tags = [which / 16 % 3, which / 16 / 3];
        let src = varied::sattr3(&mut Numbers::new(), flags, tags);
        rewritten!(count, 44, floor_copy_sattr3 and floor_judge_sattr3, src);
        read!(count, yugerzat_read_sattr3, floor_read_sattr3, 16, src);
        let [a, b, c, d] = flags.map(u64::from);
        let [e, f] = tags.map(u64::from);
        let figures = [a, 2, b, 3, c, 4, d, 5, e, 6, 7, f, 8, 9];
        written!(count, writer!(yugerzat_write_sattr3), writer!(floor_write_sattr3), figures);
        count += narrow_rooms(&figures, src.len());
    }
    count
}

/// A sattr3 written with just enough room, and a byte less or more.
fn narrow_rooms(figures: &[u64], size: usize) -> u64 {
    let mut count = 0;
    for (room, start) in (0..3).map(|less| size + 1 - less).flat_map(|room| [(room, 0), (room + 5, 5)]) {
        // SAFETY: every address comes with the length of what lies there.
        let ours = left(|info, out| unsafe { yugerzat_write_sattr3(figures.as_ptr(), 14, out, room, start, info, 1) });
        // SAFETY: as above.
        let floor = left(|info, out| unsafe { floor_write_sattr3(figures.as_ptr(), 14, out, room, start, info, 1) });
        assert_eq!(ours, floor, "floor_write_sattr3 of {figures:?}, room {room}, start {start}");
        count += 1;
    }
    count
}

/// Names, handles, bodies and data of 0 to 70 bytes: every length of one beside some length of the other, and none beside
/// none.
fn lengths() -> u64 {
    let pairs = (0..=70).map(|n| (n, (n * 29 + 7) % 71));
    pairs.chain([(0, 0)]).map(|(one, two)| pieces(&Numbers::new().bytes(one), &Numbers::new().bytes(two))).sum()
}

fn pieces(one: &[u8], two: &[u8]) -> u64 {
    let mut count = 0;
    let place = [messages::opaque(one), messages::opaque(two)].concat();
    rewritten!(count, 45, floor_copy_diropargs3 and floor_judge_diropargs3, place);
    read!(count, yugerzat_read_diropargs3, floor_read_diropargs3, 6, place);
    let call = messages::call_with(one, two);
    rewritten!(count, 20, floor_copy_rpc_msg and floor_judge_rpc_msg, call);
    read!(count, yugerzat_read_rpc_msg, floor_read_rpc_msg, 14, call);
    let gids: Vec<u32> = (0..two.len() as u32 % 17).collect();
    let auth = messages::auth_unix_with(one, &gids);
    rewritten!(count, 18, floor_copy_auth_unix and floor_judge_auth_unix, auth);
    count += credential(&auth);
    rewritten!(count, 6, floor_copy_opaque and floor_judge_opaque, messages::opaque(one));
    rewritten!(count, 56, floor_copy_read3res and floor_judge_read3res, messages::read3res_with(false, one));
    rewritten!(count, 57, floor_copy_write3args and floor_judge_write3args, messages::write3args_to(one, two));
    for (first, second) in [(one, two), (two, one)] {
        let (a, b) = (first.len() as u64, second.len() as u64);
        written!(
            count,
            writer!(yugerzat_write_diropargs3, first, second),
            writer!(floor_write_diropargs3, first, second),
            [0, a, 0, b]
        );
        written!(
            count,
            writer!(yugerzat_write_call, first, second),
            writer!(floor_write_call, first, second),
            [7, 2, 100_003, 3, 1, 1, 0, a, 0, 0, b]
        );
    }
    count
}

/// The messages that are timed. (Those with 64 KiB of data are judged by all contestants when their rows are made.)
fn timed() -> u64 {
    let mut count = 0;
    for &src in set(varied::call).came {
        rewritten_one!(count, 20, floor_copy_rpc_msg and floor_judge_rpc_msg, src);
        read_one!(count, yugerzat_read_rpc_msg, floor_read_rpc_msg, 14, src);
    }
    for &src in set(varied::auth_unix).came {
        rewritten_one!(count, 18, floor_copy_auth_unix and floor_judge_auth_unix, src);
    }
    for &src in set(varied::fattr3).came {
        rewritten_one!(count, 31, floor_copy_fattr3 and floor_judge_fattr3, src);
        read_one!(count, yugerzat_read_fattr3, floor_read_fattr3, 19, src);
    }
    let changes = [varied::sattr3_full, varied::sattr3_empty, varied::sattr3_mixed].map(|one| set(one).came);
    for &src in changes.into_iter().chain([loose_set(varied::sattr3_loose).came]).flatten() {
        rewritten_one!(count, 44, floor_copy_sattr3 and floor_judge_sattr3, src);
        read_one!(count, yugerzat_read_sattr3, floor_read_sattr3, 16, src);
    }
    for &src in [set(varied::diropargs3).came, loose_set(varied::diropargs3_loose).came].into_iter().flatten() {
        rewritten_one!(count, 45, floor_copy_diropargs3 and floor_judge_diropargs3, src);
        read_one!(count, yugerzat_read_diropargs3, floor_read_diropargs3, 6, src);
    }
    count
}

/// Credentials such as are timed, and one more.
fn credentials() -> u64 {
    let mut n = Numbers::new();
    let some = (0..40).map(|_| varied::auth_unix(&mut n)).chain([messages::auth_unix()]);
    some.map(|auth| credential(&auth)).sum()
}

fn credential(auth: &[u8]) -> u64 {
    let mut count = 0;
    for src in variants(auth) {
        for (at, length) in
            [(0, src.len()), (0, 0), (1, src.len()), (src.len(), 0), (src.len() + 1, 0), (0, usize::MAX), (usize::MAX, 1)]
        {
            for figures in [8, 9] {
                let (p, n) = (src.as_ptr(), src.len());
                // SAFETY: as above.
                let ours = left(|info, _| unsafe { yugerzat_read_auth_unix(p, n, at, length, info, figures) });
                // SAFETY: as above.
                let floor = left(|info, _| unsafe { floor_read_auth_unix(p, n, at, length, info, figures) });
                same("floor_read_auth_unix", &src, &ours, &floor);
                count += 1;
            }
        }
    }
    count
}

/// Export lists whose entries have none, one and two groups, with padding and without.
fn export_lists() -> Vec<Vec<u8>> {
    let entries = [("/srv/music", vec![]), ("/a", vec!["bbb"]), ("", vec!["", "hall"]), ("/etc", vec![])];
    let list = |n| {
        let text = |s: &&str| String::from(*s);
        messages::exports(entries[..n].iter().map(|(path, names)| (text(path), names.iter().map(text).collect())))
    };
    (0..=entries.len()).map(list).collect()
}

fn written_lists() -> u64 {
    let mut count = 0;
    for src in export_lists().iter().flat_map(|list| variants(list)) {
        let (p, n) = (src.as_ptr(), src.len());
        let places = [(4, 0), (n, 0), (n + 1, 0), (usize::MAX, 1), (0, usize::MAX)];
        for (place, entries) in (0..=5).map(|entries| (0, entries)).chain(places) {
            for (start, room, figures) in
                [(0, ROOM, 1), (3, ROOM, 2), (0, n, 1), (1, n, 1), (0, 4, 1), (5, 4, 1), (0, 0, 1), (0, ROOM, 0)]
            {
                // SAFETY: as above.
                let ours = left(|info, out| unsafe {
                    yugerzat_write_exports(p, n, place, entries, out, room, start, info, figures)
                });
                // SAFETY: as above.
                let floor =
                    left(|info, out| unsafe { floor_write_exports(p, n, place, entries, out, room, start, info, figures) });
                same("floor_write_exports", &src, &ours, &floor);
                count += 1;
            }
        }
    }
    count
}

/// Lists of three entries with paths at the bound and over it, whole and cut; and sources at the bound and over it.
fn long_paths() -> u64 {
    const LENGTHS: [usize; 4] = [3, 1024, 1025, 2000];
    let mut count = 0;
    for lengths in LENGTHS.iter().flat_map(|&a| LENGTHS.map(|b| LENGTHS.map(|c| [a, b, c]))).flatten() {
        let whole = messages::exports(lengths.map(|n| ("x".repeat(n), vec![String::from("hall")])));
        for cut in [0, 1, 4, 9, 2000] {
            count += long_path(&whole[..whole.len().saturating_sub(cut)]);
        }
    }
    count + long_path(&vec![0; 1_048_576]) + long_path(&vec![0; 1_048_577])
}

fn long_path(src: &[u8]) -> u64 {
    const EXPORTS: u32 = 70;
    const ROOM: usize = 8192;
    let (p, n) = (src.as_ptr(), src.len());
    let mut count = 0;
    macro_rules! compare {
        (|$info:ident, $out:ident| $ours:expr, $floor:expr) => {
            // SAFETY: as above.
            let ours = left_in::<ROOM>(|$info, $out| unsafe { $ours });
            // SAFETY: as above.
            let floor = left_in::<ROOM>(|$info, $out| unsafe { $floor });
            same(stringify!($floor), src, &ours, &floor);
            count += 1;
        };
    }
    compare!(|info, _out| yugerzat_judge(EXPORTS, p, n, 0, info, 3), floor_judge_exports(p, n, 0, info, 3));
    compare!(|info, _out| yugerzat_read_exports(p, n, 0, info, 4), floor_read_exports(p, n, 0, info, 4));
    compare!(|info, _out| yugerzat_next_export(p, n, 0, info, 7), floor_next_export(p, n, 0, info, 7));
    compare!(
        |info, out| yugerzat_rewrite(EXPORTS, p, n, 0, out, ROOM, info, 3),
        floor_copy_exports(p, n, 0, out, ROOM, info, 3)
    );
    for entries in [0, 2, 3] {
        compare!(
            |info, out| yugerzat_write_exports(p, n, 0, entries, out, ROOM, 0, info, 1),
            floor_write_exports(p, n, 0, entries, out, ROOM, 0, info, 1)
        );
    }
    count
}
