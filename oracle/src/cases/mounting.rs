//! Questions about the mount protocol and the port mapper. Most messages are made so that the reading gets far: export lists
//! with odd flags, dirty padding and paths about the bound, and calls about the versions and procedures that are served.
use super::damage::damage;
use super::messages::{append_header, append_message, append_opaque, link, put, Style, Word};
use super::numbers::{about_the_bound, length, path_length, telling, word};
use super::{append_call, message, place_to_write, Question, Room, Sources};
use crate::answers::{Piece, BOUND};
use crate::model::Model;
use crate::random::Random;
use crate::shapes::{kind, Reading, Shape};
use crate::values::Walk;

/// An entry of an export list: a path, and names.
#[derive(Clone, Debug)]
struct Export {
    path: Vec<u8>,
    names: Vec<Vec<u8>>,
}

/// Where the flags of a list stand: those of its entries, and those of their names; the last of each row is false.
#[derive(Default)]
struct Flags {
    entries: Vec<usize>,
    names: Vec<Vec<usize>>,
}

fn some_bytes(random: &mut Random, count: usize) -> Vec<u8> {
    let mut bytes = Vec::new();
    random.append(count, &mut bytes);
    bytes
}

/// A list; mostly of few entries, and few of them have long paths.
fn exports(random: &mut Random) -> Vec<Export> {
    let count = match random.below(16) {
        0 | 1 => 0,
        2..=12 => random.between(1, 3),
        13 | 14 => random.between(4, 7),
        _ => random.below(40),
    };
    (0..count)
        .map(|_| {
            let length = path_length(random);
            let names = random.pick(&[0, 0, 1, 1, 2, 3, 5]);
            Export { path: some_bytes(random, length), names: (0..names).map(|_| name(random)).collect() }
        })
        .collect()
}

fn name(random: &mut Random) -> Vec<u8> {
    let length = if random.once_in(20) { random.pick(&[254, 255, 256, 300, 1_025, 5_000]) } else { length(random) };
    some_bytes(random, length)
}

/// Appends a list in one of its forms.
fn append_exports(random: &mut Random, list: &[Export], style: Style, bytes: &mut Vec<u8>, words: &mut Vec<Word>) -> Flags {
    let mut flags = Flags::default();
    let end = |bytes: &mut Vec<u8>, words: &mut Vec<Word>| {
        words.push(Word::Number(bytes.len()));
        put(bytes, 0);
        bytes.len() - 4
    };
    for export in list {
        flags.entries.push(bytes.len());
        link(random, style, bytes, words);
        append_opaque(random, &export.path, style, bytes, words);
        let mut names = Vec::new();
        for name in &export.names {
            names.push(bytes.len());
            link(random, style, bytes, words);
            append_opaque(random, name, style, bytes, words);
        }
        names.push(end(bytes, words));
        flags.names.push(names);
    }
    flags.entries.push(end(bytes, words));
    flags
}

/// A list behind some bytes, mostly as it was made. Gives the source, where the list begins, and the places of its flags.
fn made(random: &mut Random, list: &[Export]) -> (Vec<u8>, usize, Flags) {
    let at = random.pick(&[0, 0, 0, 1, 3, 4, 8, 11]);
    let (mut source, mut words) = (some_bytes(random, at), Vec::new());
    let style = Style::any(random);
    let flags = append_exports(random, list, style, &mut source, &mut words);
    match random.below(8) {
        0 => damage(random, at, &mut source, &mut words),
        // Cut in its last bytes: of what stands behind a path over the bound, something is wanting.
        1 => {
            let length = source.len() - at;
            source.truncate(source.len() - random.between(1, 12).min(length));
        },
        2 => {
            let behind = random.between(1, 9);
            random.append(behind, &mut source);
        },
        _ => {},
    }
    if random.once_in(600) {
        source.resize(random.between(BOUND - 2, BOUND + 2), 0);
    }
    (source, at, flags)
}

/// A list in which several paths are over the bound.
fn long_exports(random: &mut Random) -> Vec<Export> {
    let mut list = exports(random);
    for export in &mut list {
        if random.once_in(2) {
            let length = about_the_bound(random);
            export.path = some_bytes(random, length);
        }
    }
    list
}

fn any_exports(random: &mut Random) -> Vec<Export> {
    if random.once_in(4) {
        long_exports(random)
    } else {
        exports(random)
    }
}

/// A message of one of the kinds.
pub fn read(random: &mut Random) -> Question {
    let name = random.pick(&["dirpath", "mountstat3", "mountres3", "mountres3", "exports", "exports", "exports", "mapping"]);
    let number = kind(name).expect("the kind is known");
    let (message, at) = if name == "exports" {
        let list = any_exports(random);
        let (source, at, _) = made(random, &list);
        (source, at)
    } else {
        message(random, number)
    };
    let room = match random.below(16) {
        0 => Room::Under(random.between(1, 9)),
        1..=7 => Room::Over(random.below(9)),
        _ => Room::Ample,
    };
    Question::Read { kind: number as u32, at, message, room }
}

/// What reads a list, from the place of one of its flags, or from a place beside it.
pub fn walk(random: &mut Random) -> Question {
    let list = any_exports(random);
    let (message, at, flags) = made(random, &list);
    let walk = random.pick(&[Walk::Exports, Walk::Export, Walk::Group]);
    let at = match walk {
        Walk::Exports if random.once_in(4) => random.pick(&flags.entries),
        Walk::Exports => at,
        Walk::Export => random.pick(&flags.entries),
        Walk::Group if flags.names.is_empty() => at,
        Walk::Group => {
            let names = random.below(flags.names.len());
            random.pick(&flags.names[names])
        },
    };
    let at = match random.below(60) {
        0 => at + 4,
        1 => at.saturating_sub(4),
        2 => message.len(),
        3 => message.len() + random.between(1, 5),
        4 => usize::MAX - random.below(9),
        _ => at,
    };
    Question::Walk { walk, at, message }
}

/// A path to be written: a piece of a source, most of them inside, and many about the bound.
pub fn path(random: &mut Random) -> Question {
    let content = path_length(random);
    let (before, behind) = (random.below(9), random.below(9));
    let mut source = some_bytes(random, before + content + behind);
    if random.once_in(300) {
        source.resize(random.between(BOUND - 1, BOUND + 2), 0x5A);
    }
    let (place, count) = match random.below(16) {
        0 => (before, source.len().saturating_sub(before)),
        1 => (before, source.len().saturating_sub(before) + 1),
        2 => (source.len(), random.below(2)),
        3 => (source.len() + 1, 0),
        4 => (usize::MAX - random.below(3), random.below(5)),
        5 => (before, usize::MAX - random.below(before + 1)),
        // Over the bound, and not inside.
        6 => (source.len() - random.below(source.len() + 1), random.pick(&[1_024, 1_025, 4_096])),
        7 => (before, random.below(content + 1)),
        _ => (before, content),
    };
    let path = Piece { place, count };
    let length = Model::FAULTLESS.written_path(&source, path).map_or(40, |bytes| bytes.len());
    let (room, start) = place_to_write(random, length);
    Question::Path { source, path, room, start }
}

/// A list as it is held: its place and its count, which may be off.
fn held(random: &mut Random, at: usize, list: &[Export], flags: &Flags) -> Piece {
    let count = list.len();
    let (place, count) = match random.below(16) {
        0 => (at, count + 1),
        1 => (at, count.saturating_sub(1)),
        2 => (at + 4, count),
        3 => (at.saturating_sub(4), count),
        4 => (at, random.pick(&[0, 1, usize::MAX, usize::MAX - 1, 1 << 32])),
        // The rest of the list is a list.
        5 | 6 => {
            let skipped = random.below(flags.entries.len());
            (flags.entries[skipped], count - skipped)
        },
        7 if random.once_in(4) => (usize::MAX - random.below(9), count),
        8 if random.once_in(4) => (at + random.below(2_000), random.below(2)),
        _ => (at, count),
    };
    Piece { place, count }
}

/// An export list to be written.
pub fn list(random: &mut Random) -> Question {
    let entries = any_exports(random);
    let (source, at, flags) = made(random, &entries);
    let list = held(random, at, &entries, &flags);
    let length = Model::FAULTLESS.written_list(&source, list).map_or(40, |bytes| bytes.len());
    let (room, start) = place_to_write(random, length);
    Question::List { source, list, room, start }
}

/// Two lists: the same in two forms, or one with a small change.
pub fn same(random: &mut Random) -> Question {
    let mut first = if random.once_in(16) { long_exports(random) } else { exports(random) };
    if !random.once_in(16) {
        first.iter_mut().for_each(|export| export.path.truncate(1_024));
    }
    let mut second = first.clone();
    if random.once_in(2) {
        change(random, &mut second);
    }
    let [a, b] = [&first, &second].map(|list| {
        let (source, at, flags) = if random.once_in(4) { made(random, list) } else { tidy(random, list) };
        let piece = if random.once_in(4) { held(random, at, list, &flags) } else { Piece { place: at, count: list.len() } };
        (source, piece)
    });
    // One buffer for both, now and then.
    if random.once_in(8) {
        return Question::Same { sources: Sources::Same(a.0), lists: [a.1, a.1] };
    }
    Question::Same { sources: Sources::Two(a.0, b.0), lists: [a.1, b.1] }
}

/// A list that is whole, behind some bytes and before some.
fn tidy(random: &mut Random, list: &[Export]) -> (Vec<u8>, usize, Flags) {
    let (at, behind) = (random.below(12), random.below(5));
    let mut source = some_bytes(random, at);
    let style = Style::any(random);
    let flags = append_exports(random, list, style, &mut source, &mut Vec::new());
    random.append(behind, &mut source);
    (source, at, flags)
}

/// Makes another list of one: a byte, a length, a name or an entry.
fn change(random: &mut Random, list: &mut Vec<Export>) {
    if list.is_empty() {
        return list.push(Export { path: Vec::new(), names: Vec::new() });
    }
    let at = random.below(list.len());
    let which = random.below(10);
    let export = &mut list[at];
    match which {
        0 | 1 => flip(random, &mut export.path),
        2 | 3 if !export.names.is_empty() => {
            let name = random.below(export.names.len());
            flip(random, &mut export.names[name]);
        },
        4 => {
            export.names.pop();
        },
        5 => export.names.push(name(random)),
        6 => {
            // A zero at the end is padding in the one, and content in the other.
            let content = export.names.last_mut().unwrap_or(&mut export.path);
            content.push(0);
        },
        7 => {
            // The names move to the next entry.
            let names = std::mem::take(&mut export.names);
            let next = (at + 1) % list.len();
            list[next].names.splice(0..0, names);
        },
        8 => {
            list.remove(at);
        },
        _ => {
            let last = list.len() - 1;
            list.swap(at, last);
        },
    }
}

fn flip(random: &mut Random, content: &mut Vec<u8>) {
    if content.is_empty() {
        content.push(0);
    } else {
        let at = random.below(content.len());
        content[at] ^= 1 << random.below(8);
    }
}

/// A call of either program, about the versions and the procedures that are served, with arguments that mostly fit.
pub fn ask(random: &mut Random) -> Question {
    let (mut message, mut words) = (Vec::new(), Vec::new());
    if random.once_in(6) {
        append_call(random, Reading::Crate, &mut message, &mut words);
        if random.once_in(3) {
            damage(random, 0, &mut message, &mut words);
        }
    } else {
        append_mount_call(random, &mut message, &mut words);
    }
    if random.once_in(2_000) {
        message.resize(random.between(BOUND - 2, BOUND + 2), 0);
    }
    let room = random.pick(&[0, 4, 23, 24, 24, 25, 31, 32, 32, 32, 33, 40]);
    Question::Ask { seen: random.once_in(12), room, message }
}

/// Such a call; a quarter of them are damaged.
pub fn append_mount_call(random: &mut Random, message: &mut Vec<u8>, words: &mut Vec<Word>) {
    let (program, served) = random.pick(&[(100_005, 3), (100_005, 3), (100_000, 2), (100_003, 3)]);
    let version = match random.below(8) {
        0 => random.pick(&[0, 1, 2, 3, 4, u32::MAX]),
        1 => word(random),
        _ => served,
    };
    let procedure = match random.below(10) {
        0 => telling(random),
        1..=4 => random.pick(&[1, 3]),
        _ => random.below(8) as u32,
    };
    let rpcvers = if random.once_in(20) { word(random) } else { 2 };
    let xid = random.word();
    append_header(random, [xid, 0, rpcvers, program, version, procedure], message, words);
    let (arguments, before) = (message.len(), words.len());
    let style = Style::any(random);
    match program {
        100_000 => (0..4).for_each(|_| put(message, word(random))),
        _ if random.once_in(4) => {
            let length = about_the_bound(random);
            let path = some_bytes(random, length);
            append_opaque(random, &path, style, message, words);
        },
        _ => append_message(random, &Shape::Path, style, message, words),
    }
    let mut inside = words.split_off(before);
    match random.below(8) {
        0 => message.truncate(message.len() - random.below(message.len() - arguments + 1)),
        1 => damage(random, arguments, message, &mut inside),
        2 => damage(random, 0, message, words),
        3 | 4 => {
            let behind = random.between(1, 9);
            random.append(behind, message);
        },
        _ => {},
    }
}
