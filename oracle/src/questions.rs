//! Answers lines as the program `answers` must: from the crate, and where it cannot tell, from the model.
use std::vec::IntoIter;

use crate::answers::{Fed, Piece, State, Unwritten, BOUND};
use crate::lent::EMPTY;
use crate::lines;
use crate::model::Model;
use crate::shapes::{kind, Reading};
use crate::truth::Truth;
use crate::yielded::Yielded;

/// The answer to a line; `?` and why, if the line has not the form of any. A line may have any bytes.
pub fn answer(truth: &mut Truth, line: &[u8]) -> String {
    try_answer(truth, line).unwrap_or_else(|why| format!("? {why}"))
}

/// The words of a line are read from left to right, and the first fault that is met is told. Whether there is so much room
/// is looked at when all of them were read.
fn try_answer(truth: &mut Truth, line: &[u8]) -> Result<String, String> {
    if line.len() > lines::LONGEST {
        return Err(format!("the line has more than {} characters", lines::LONGEST));
    }
    let mut words = Words(line.split(|byte| *byte == b' ').collect::<Vec<&[u8]>>().into_iter());
    match words.next("an empty line")? {
        b"read" => {
            let (kind, at, bytes) = (words.kind()?, words.number()?, words.bytes()?);
            words.end()?;
            let answer = truth.read(kind, &bytes, at);
            Ok(lines::reading(&answer, &truth.rewriting))
        },
        b"marks" => {
            let (kind, at, bytes) = (words.kind()?, words.number()?, words.bytes()?);
            words.end()?;
            let answer = truth.read(kind, &bytes, at);
            Ok(lines::marking(&answer, &truth.marks))
        },
        b"write" => {
            let (kind, at, bytes) = (words.kind()?, words.number()?, words.bytes()?);
            let (room, start) = (words.number()?, words.number()?);
            words.end()?;
            let mut out = buffer(room)?;
            match truth.read(kind, &bytes, at) {
                Ok(_) => Ok(write(&truth.rewriting, &mut out, start)),
                Err(refusal) => Ok(lines::refusal(&refusal)),
            }
        },
        b"fragment" => {
            let (bytes, room, start) = (words.bytes()?, words.number()?, words.number()?);
            words.end()?;
            let mut out = buffer(room)?;
            let wrote = truth.fragment(&bytes, &mut out, start);
            Ok(lines::wrote(wrote, &out))
        },
        b"feed" => {
            let (capacity, runs) = (words.number()?, words.runs()?);
            Ok(feed(truth, capacity, &runs))
        },
        b"stream" => {
            let (capacity, bytes, lengths) = (words.number()?, words.bytes()?, words.numbers()?);
            Ok(stream(truth, capacity, &bytes, &lengths))
        },
        b"state" => {
            let mut state = State {
                capacity: words.number()? as u64,
                placed: words.number()? as u64,
                count: words.number()? as u64,
                value: words.number()? as u64,
                left: words.number()? as u64,
                last: words.mark()?,
                stopped: words.mark()?,
            };
            let (length, run) = (words.number()?, words.bytes()?);
            words.end()?;
            let mut record = buffer(length)?;
            let fed = Model::FAULTLESS.feed(&mut state, &run, &mut record);
            Ok(lines::fed(&fed, None) + &lines::state_and_buffer(&state, &record))
        },
        word @ (b"choose" | b"current_choose") => {
            let (seen, room, bytes) = (words.mark()?, words.number()?, words.bytes()?);
            words.end()?;
            let mut out = buffer(room)?;
            let reading = if word == b"choose" { Reading::Crate } else { Reading::Current };
            let choice = truth.choose(reading, &bytes, seen, &mut out);
            Ok(lines::choice(&choice, &out))
        },
        b"ask" => {
            let (seen, room, bytes) = (words.mark()?, words.number()?, words.bytes()?);
            words.end()?;
            let mut out = buffer(room)?;
            let asked = truth.ask(&bytes, seen, &mut out);
            Ok(lines::asked(&asked, &out))
        },
        word @ (b"path" | b"list") => {
            let (bytes, place, count) = (words.bytes()?, words.number()?, words.number()?);
            let (room, start) = (words.number()?, words.number()?);
            words.end()?;
            let mut out = buffer(room)?;
            let piece = Piece { place, count };
            let wrote = match word {
                b"path" => truth.write_path(&bytes, piece, &mut out, start),
                _ => truth.write_list(&bytes, piece, &mut out, start),
            };
            Ok(lines::wrote(wrote, &out))
        },
        word @ (b"part" | b"words") => {
            let (bytes, place, count) = (words.bytes()?, words.number()?, words.number()?);
            words.end()?;
            Ok(part(&bytes, place, count, if word == b"words" { 4 } else { 1 }))
        },
        word => Err(format!("no question named {}", shown(word))),
    }
}

/// The words of a line that were not read yet. They are parted by one space each.
struct Words<'a>(IntoIter<&'a [u8]>);

impl<'a> Words<'a> {
    /// The next word. An empty one is as good as none.
    fn next(&mut self, missing: &str) -> Result<&'a [u8], String> {
        self.0.next().filter(|word| !word.is_empty()).ok_or_else(|| missing.to_owned())
    }

    fn kind(&mut self) -> Result<usize, String> {
        let word = self.next("a kind is missing")?;
        std::str::from_utf8(word).ok().and_then(kind).ok_or_else(|| format!("no kind named {}", shown(word)))
    }

    fn number(&mut self) -> Result<usize, String> {
        let word = self.next("a number is missing")?;
        let text = std::str::from_utf8(word).ok().filter(|_| word.iter().all(u8::is_ascii_digit));
        text.and_then(|text| text.parse().ok()).ok_or_else(|| format!("not a number: {}", shown(word)))
    }

    /// A yes or no.
    fn mark(&mut self) -> Result<bool, String> {
        match self.next("a mark is missing")? {
            b"0" => Ok(false),
            b"1" => Ok(true),
            word => Err(format!("neither 0 nor 1: {}", shown(word))),
        }
    }

    /// Bytes in hex. (The program has room for 1,100,000, and no word of a line that is read spells more.)
    fn bytes(&mut self) -> Result<Vec<u8>, String> {
        let word = self.next("bytes are missing")?;
        if word == b"-" {
            return Ok(Vec::new());
        }
        let digits: Option<Vec<u8>> = word.iter().map(|byte| Some(char::from(*byte).to_digit(16)? as u8)).collect();
        let digits = digits.ok_or_else(|| format!("not hex: {}", shown(word)))?;
        if digits.len() % 2 == 1 {
            return Err(String::from("odd number of hex digits"));
        }
        Ok(digits.chunks(2).map(|pair| pair[0] << 4 | pair[1]).collect())
    }

    /// Bytes to the line's end, a word for each run. There is one at least.
    fn runs(&mut self) -> Result<Vec<Vec<u8>>, String> {
        let mut runs = vec![self.bytes()?];
        while self.0.len() > 0 {
            runs.push(self.bytes()?);
        }
        Ok(runs)
    }

    /// Numbers to the line's end. There may be none.
    fn numbers(&mut self) -> Result<Vec<usize>, String> {
        let mut numbers = Vec::new();
        while self.0.len() > 0 {
            numbers.push(self.number()?);
        }
        Ok(numbers)
    }

    fn end(&mut self) -> Result<(), String> {
        match self.0.next() {
            Some(_) => Err(String::from("more words than the line takes")),
            None => Ok(()),
        }
    }
}

/// A word as it is told: its beginning, with a point for what cannot be printed.
fn shown(word: &[u8]) -> String {
    word.iter().take(32).map(|byte| if byte.is_ascii_graphic() { char::from(*byte) } else { '.' }).collect()
}

/// A buffer of so many bytes; there is none of more than the bound.
fn buffer(length: usize) -> Result<Vec<u8>, String> {
    if length > BOUND {
        return Err(format!("room for more than {BOUND} bytes"));
    }
    Ok(vec![EMPTY; length])
}

/// Bytes of a message written from a place of a buffer on. (A source over the bound is refused when it is read, a piece
/// that was just read lies inside, and no rewriting is longer than both 40 bytes and its source: 9 and 5 are left.)
fn write(rewriting: &[u8], out: &mut [u8], start: usize) -> String {
    if start > out.len() {
        return lines::wrote(Err(Unwritten::plain(9)), out);
    }
    let next = start + rewriting.len();
    match out.get_mut(start..next) {
        None => lines::wrote(Err(Unwritten::no_room(rewriting.len())), out),
        Some(place) => {
            place.copy_from_slice(rewriting);
            lines::wrote(Ok(next), out)
        },
    }
}

/// The model's answers, after a look whether the crate makes the same records of the stream. Each run is fed once at
/// least, an empty one too.
fn feed(truth: &mut Truth, capacity: usize, runs: &[Vec<u8>]) -> String {
    if capacity > BOUND {
        return String::from("refused 3");
    }
    let mut state = State::fresh(capacity as u64);
    let mut record = vec![EMPTY; capacity];
    let (mut text, mut records) = (Vec::new(), Vec::new());
    'runs: for run in runs {
        let mut rest: &[u8] = run;
        loop {
            let fed = Model::FAULTLESS.feed(&mut state, rest, &mut record);
            match fed {
                Fed::More { used } => {
                    text.push(lines::fed(&fed, None));
                    rest = &rest[used..];
                },
                Fed::Complete { length, used } => {
                    text.push(lines::fed(&fed, Some(&record[..length])));
                    records.push(record[..length].to_vec());
                    rest = &rest[used..];
                },
                Fed::Refused { .. } => {
                    text.push(lines::fed(&fed, None));
                    break 'runs;
                },
            }
            if rest.is_empty() {
                break;
            }
        }
    }
    let (crates, _) = truth.records(&runs.concat(), capacity);
    assert!(crates.complete.iter().map(|(record, _)| record).eq(&records), "the crate makes other records");
    text.join("; ") + &lines::state_and_buffer(&state, &record)
}

/// What a stream yields in runs of these lengths, by the model, after a look whether the crate has the same.
fn stream(truth: &mut Truth, capacity: usize, bytes: &[u8], lengths: &[usize]) -> String {
    if capacity > BOUND {
        return String::from("refused 3");
    }
    let mut state = State::fresh(capacity as u64);
    let mut record = vec![EMPTY; capacity];
    let yielded = Yielded::by(bytes, lengths, &mut record, |run, record| Model::FAULTLESS.feed(&mut state, run, record));
    assert_eq!(yielded, truth.yielded(bytes, capacity), "the crate makes other records");
    lines::yielded(&yielded) + &lines::state_and_buffer(&state, &record)
}

/// The bytes of a piece of items of that width. In 128 bits: neither the sum nor the product wraps.
fn part(source: &[u8], place: usize, count: usize, width: usize) -> String {
    let end = place as u128 + count as u128 * width as u128;
    if end > source.len() as u128 {
        return String::from("outside -");
    }
    format!("inside {}", lines::hex(&source[place..end as usize]))
}

#[cfg(test)]
mod tests {
    use super::answer;
    use crate::lines::LONGEST;
    use crate::truth::Truth;

    /// The examples of such lines, and the worked bytes of docs/SCOPE.md that they leave out.
    const WORKED: &[(&str, &str)] = &[
        ("read bool 0 00000100", "took 4 loose 00000001"),
        ("read opaque 0 0000000568656C6C6F000000", "took 12 plain 0000000568656c6c6f000000"),
        ("read opaque 0 0000000568656C6C6F000001", "took 12 loose 0000000568656c6c6f000000"),
        ("read opaque 0 00000000", "took 4 plain 00000000"),
        ("read opaque 0 00000001AA0000", "refused 1 0 1"),
        ("read opaque 0 000000", "refused 1 0 1"),
        ("read opaque 0 FFFFFFFF", "refused 1 0 4294967296"),
        ("read opaque 0 00000001", "refused 1 0 4"),
        ("read words 0 00000003000000010000", "refused 1 0 6"),
        ("read words 0 FFFFFFFF", "refused 1 0 17179869180"),
        ("read u64 0 -", "refused 1 0 8"),
        ("read diropargs3 1 AA000000000000000241", "refused 1 5 3"),
        ("read i32 0 FFFFFFFF", "took 4 plain ffffffff"),
        ("read i32 0 80000000", "took 4 plain 80000000"),
        ("read set_atime 0 00000003", "refused 2 0"),
        (
            "read sattr3 0 000000000000000000000000FFFFFFFF00000000000000000000000000000000",
            "took 32 loose 0000000000000000000000000000000100000000000000000000000000000000",
        ),
        (
            "read rpc_msg 0 0000002A00000002",
            "took 8 loose 0000002a000000000000000000000000000000000000000000000000000000000000000000000000",
        ),
        (
            "read rpc_msg 0 0000002A0000000100000000000000000000000000000005",
            "took 24 loose 0000002a0000000100000000000000000000000000000004",
        ),
        ("write bool 0 00000100 6 1", "wrote 5 ee00000001ee"),
        ("feed 10 0000000080000002ABCD", "complete 2 10 abcd; state 10 0 0 0 0 0 0; buffer abcdeeeeeeeeeeeeeeee"),
        ("feed 1 80000000", "complete 0 4 -; state 1 0 0 0 0 0 0; buffer ee"),
        ("feed 3 80000004", "refused 7 4; state 3 0 0 0 0 0 1; buffer eeeeee"),
        ("feed 4 80000004", "more 4; state 4 0 0 0 4 1 0; buffer eeeeeeee"),
        (
            "stream 10 0000000080000002ABCD 1 0 7",
            "record 2 abcd; used 10; state 10 0 0 0 0 0 0; buffer abcdeeeeeeeeeeeeeeee",
        ),
        ("stream 3 8000000401020304 2", "refused 7 4; used 4; state 3 0 0 0 0 0 1; buffer eeeeee"),
        ("stream 4 80000004AA", "used 5; state 4 1 0 0 3 1 0; buffer aaeeeeee"),
        ("stream 4 -", "used 0; state 4 0 0 0 0 0 0; buffer eeeeeeee"),
        ("choose 0 24 0000002A00000002", "reply 24 0000002a0000000100000001000000000000000000000000"),
        ("choose 0 23 0000002A00000002", "refused 5 eeeeeeeeeeeeeeeeeeeeeeeeeeeeeeeeeeeeeeeeeeeeee"),
        // The body of the credential has no byte of its first word, whatever stands behind it.
        ("choose 0 1 0000002A0000000000000002000186A3000000030000000000000001000000000000000000000000", "refused 1 32 4 ee"),
        ("part 0011223344 1 3", "inside 112233"),
        ("part 0011223344 3 3", "outside -"),
    ];

    /// Kinds that the crate lacks, as RFC 1813 has them.
    const CALLS_AND_RESULTS: &[(&str, &str)] = &[
        ("read stable_how 0 00000002", "took 4 plain 00000002"),
        ("read stable_how 0 00000003", "refused 2 0"),
        ("read sattrguard3 0 0000000000000007", "took 4 plain 00000000"),
        ("read sattrguard3 0 800000000000000700000008", "took 12 loose 000000010000000700000008"),
        ("read sattrguard3 0 0000000100000007", "refused 1 8 4"),
        ("read getattr3args 0 00000001AA0000FF", "took 8 loose 00000001aa000000"),
        // Nothing stands behind a failure of GETATTR.
        ("read getattr3res 0 0000000100000000", "took 4 plain 00000001"),
        ("read getattr3res 0 0000001D", "refused 2 0"),
        ("read getattr3res 0 00000000", "refused 1 4 4"),
        (
            "read setattr3args 0 00000000000000000000000000000000000000000000000000000000FFFFFFFF0000000700000008",
            "took 40 loose 00000000000000000000000000000000000000000000000000000000000000010000000700000008",
        ),
        ("read setattr3res 2 ABCD000027120000000000000000", "took 14 plain 000027120000000000000000"),
        ("read lookup3args 0 00000001AA000000000000024142", "refused 1 8 2"),
        (
            "read lookup3res 0 0000000000000001AA0000000000000000000000",
            "took 20 plain 0000000000000001aa0000000000000000000000",
        ),
        ("read lookup3res 0 0000000200000000", "took 8 plain 0000000200000000"),
        ("read lookup3res 0 0000000300000000", "refused 2 0"),
        ("read read3args 0 00000000000000000000000700000005", "took 16 plain 00000000000000000000000700000005"),
        // READ's count is not the length of its data, its eof is 2, and its padding is dirty.
        (
            "read read3res 0 0000000000000000000000050000000200000001AA000001",
            "took 24 loose 0000000000000000000000050000000100000001aa000000",
        ),
        ("read write3args 0 000000000000000000000007000000010000000300000000", "refused 2 16"),
        (
            "read write3args 0 000000000000000000000007000000010000000200000000",
            "took 24 plain 000000000000000000000007000000010000000200000000",
        ),
        (
            "read write3res 0 000000000000000000000000000000050000000201020304FFFFFFFF",
            "took 28 plain 000000000000000000000000000000050000000201020304ffffffff",
        ),
        ("read write3res 0 000000000000000000000000000000050000000301020304FFFFFFFF", "refused 2 16"),
        ("read write3res 0 0000000000000000000000000000000500000002010203", "refused 1 20 5"),
        // What a success has, behind a failure: it is not looked at.
        (
            "read write3res 0 000000050000000000000000000000050000000301020304FFFFFFFF",
            "took 12 plain 000000050000000000000000",
        ),
        ("write lookup3res 0 0000000200000000 9 1", "wrote 9 ee0000000200000000"),
    ];

    /// The current reading, as RFC 5531 has it, beside the crate's.
    const BOTH_READINGS: &[(&str, &str)] = &[
        ("read accept_stat 0 00000005", "refused 2 0"),
        ("read current_accept_stat 0 00000005", "took 4 plain 00000005"),
        ("read current_accept_stat 0 00000006", "refused 2 0"),
        ("read accept_body 0 00000005", "took 4 loose 00000004"),
        ("read current_accept_body 0 00000005", "took 4 plain 00000005"),
        ("read accept_body 0 00000006", "took 4 loose 00000004"),
        ("read current_accept_body 0 00000006", "took 4 loose 00000004"),
        ("read current_accept_body 0 FFFFFFFF", "took 4 loose 00000004"),
        // Nothing stands behind SYSTEM_ERR, and two words behind PROG_MISMATCH.
        ("read current_accept_body 0 000000050000000200000002", "took 4 plain 00000005"),
        ("read current_accept_body 0 0000000200000001", "refused 1 8 4"),
        ("read current_accepted_reply 0 0000000100000001AA00000100000005", "took 16 loose 0000000100000001aa00000000000005"),
        ("read current_accepted_reply 0 0000000400000000", "refused 2 0"),
        (
            "read current_rpc_msg 0 0000002A0000000100000000000000000000000000000005",
            "took 24 plain 0000002a0000000100000000000000000000000000000005",
        ),
        ("read auth_stat 0 00000000", "refused 2 0"),
        ("read current_auth_stat 0 00000000", "took 4 plain 00000000"),
        ("read auth_stat 0 0000000D", "refused 2 0"),
        ("read current_auth_stat 0 0000000D", "took 4 plain 0000000d"),
        ("read current_auth_stat 0 0000000E", "took 4 plain 0000000e"),
        ("read current_auth_stat 0 0000000F", "refused 2 0"),
        ("read rejected_reply 0 000000010000000D", "refused 2 4"),
        ("read current_rejected_reply 0 000000010000000D", "took 8 plain 000000010000000d"),
        ("read current_rejected_reply 0 000000010000000F", "refused 2 4"),
        ("read current_rpc_msg 0 0000002A0000000100000001000000010000000F", "refused 2 16"),
        // Tags that are undeclared in both.
        ("read current_rejected_reply 0 00000002", "took 4 loose 000000000000000000000000"),
        ("read current_reply_body 0 00000002", "took 4 loose 00000000000000000000000000000000"),
        (
            "read current_rpc_msg 0 0000002A00000002",
            "took 8 loose 0000002a000000000000000000000000000000000000000000000000000000000000000000000000",
        ),
        ("write current_accept_body 0 00000005 6 1", "wrote 5 ee00000005ee"),
        ("write current_accept_body 0 00000007 6 1", "wrote 5 ee00000004ee"),
        ("current_choose 0 24 0000002A00000002", "reply 24 0000002a0000000100000001000000000000000200000002"),
        ("current_choose 1 24 0000002A00000002", "reply 24 0000002a0000000100000001000000000000000200000002"),
        ("current_choose 0 3 0000002A00000002", "refused 5 eeeeee"),
        (
            "current_choose 0 25 0000002A000000000000000200018783000000030000000000000000000000000000000000000000",
            "reply 24 0000002a0000000100000000000000000000000000000001ee",
        ),
        (
            "current_choose 0 0 0000002A0000000000000002000186A3000000030000000000000000000000000000000000000000",
            "handover 100003 3 0 40 none -",
        ),
        ("choose 0 1 0000002A0000000100000001000000010000000D", "refused 2 16 ee"),
        ("current_choose 0 1 0000002A0000000100000001000000010000000D", "refused 8 ee"),
        ("current_choose 0 1 0000002A0000000100000001000000010000000F", "refused 2 16 ee"),
        ("current_choose 0 1 0000002A0000000100000000000000000000000000000005", "refused 8 ee"),
    ];

    /// The line `ask` of a call without a credential: whether it was seen before, the room, the program, its version and
    /// procedure, and its arguments.
    macro_rules! ask {
        ($seen:literal $room:literal $program:literal $version:literal $procedure:literal $arguments:literal) => {
            concat!(
                "ask ",
                $seen,
                " ",
                $room,
                " 0000002A0000000000000002",
                $program,
                $version,
                $procedure,
                "00000000000000000000000000000000",
                $arguments
            )
        };
    }

    /// The mount protocol as RFC 1813, appendix I, has it, and the mapping of RFC 1057.
    const MOUNTING: &[(&str, &str)] = &[
        ("read dirpath 0 00000000", "took 4 plain 00000000"),
        ("read dirpath 0 000000022F610000", "took 8 plain 000000022f610000"),
        ("read dirpath 1 AA000000022F6100FF", "took 9 loose 000000022f610000"),
        ("read dirpath 0 000000022F61", "refused 1 0 2"),
        ("read dirpath 0 00000401", "refused 1 0 1028"),
        ("read mountstat3 0 00002716", "took 4 plain 00002716"),
        ("read mountstat3 0 00000006", "refused 2 0"),
        ("read mountres3 0 0000000100000000", "took 4 plain 00000001"),
        ("read mountres3 0 00000000", "refused 1 4 4"),
        ("read mountres3 0 0000000300000000", "refused 2 0"),
        (
            "read mountres3 0 000000000000000155000000000000020000000000000001",
            "took 24 plain 000000000000000155000000000000020000000000000001",
        ),
        ("read mountres3 0 0000000000000001550000FF0000000200000000000000", "refused 1 12 1"),
        ("read mapping 0 000186A5000000030000000600000000", "took 16 plain 000186a5000000030000000600000000"),
        ("read mapping 0 000186A500000003000000060000", "refused 1 12 2"),
        ("read exports 0 00000000", "took 4 plain 00000000"),
        ("read exports 0 -", "refused 1 0 4"),
        // A flag of 2, and dirty padding.
        (
            "read exports 0 00000002000000012FAABBCC0000000000000000",
            "took 20 loose 00000001000000012f0000000000000000000000",
        ),
        // An empty path, and a name behind a flag of FFFFFFFF.
        (
            "read exports 0 0000000100000000FFFFFFFF00000001610000010000000000000000",
            "took 28 loose 00000001000000000000000100000001610000000000000000000000",
        ),
        // The list's end is wanting, and a name's.
        ("read exports 0 00000001000000012F00000000000000", "refused 1 16 4"),
        ("read exports 0 000000010000000000000001000000056162", "refused 1 12 6"),
        ("write exports 0 0000000500000000000000000000000077 17 1", "wrote 17 ee00000001000000000000000000000000"),
        ("path 002F6100 1 2 9 1", "wrote 9 ee000000022f610000"),
        ("path 002F6100 1 4 9 1", "refused 4 eeeeeeeeeeeeeeeeee"),
        ("path 002F6100 1 2 7 0", "refused 5 eeeeeeeeeeeeee"),
        ("path 002F6100 1 4 0 1", "refused 9 -"),
        ("path - 0 0 4 0", "wrote 4 00000000"),
        ("list 00000000 0 0 4 0", "wrote 4 00000000"),
        ("list 00000000 0 1 4 0", "refused 4 eeeeeeee"),
        ("list 00000000 4 0 1 0", "refused 4 ee"),
        ("list 00000000 0 0 3 0", "refused 5 eeeeee"),
        ("list 00000000 0 1 0 1", "refused 9 -"),
        (
            "list AA000001000000000102AABBCC0000000000000000 1 1 22 1",
            "wrote 21 ee0000000100000001020000000000000000000000ee",
        ),
        (ask!("0" "0" "000186A5" "00000003" "00000001" "000000022F610000"), "mnt 44 2 48 -"),
        (ask!("0" "1" "000186A5" "00000003" "00000003" "000000022F61FFFF00"), "umnt 44 2 48 ee"),
        (ask!("0" "0" "000186A5" "00000003" "00000001" "00000000"), "mnt 44 0 44 -"),
        (ask!("0" "0" "000186A5" "00000003" "00000001" "000000022F61"), "refused 1 40 2 -"),
        (ask!("0" "0" "000186A5" "00000003" "00000001" ""), "refused 1 40 4 -"),
        (ask!("0" "0" "000186A5" "00000003" "00000005" "FF"), "export 40 -"),
        (
            ask!("0" "0" "000186A0" "00000002" "00000003" "000186A500000003000000060000080100"),
            "getport 100005 3 6 2049 56 -",
        ),
        (ask!("0" "2" "000186A0" "00000002" "00000003" "000186A50000000300000006"), "refused 1 52 4 eeee"),
        (ask!("0" "25" "000186A5" "00000003" "00000000" ""), "reply 24 0000002a0000000100000000000000000000000000000000ee"),
        (ask!("0" "24" "000186A5" "00000003" "00000002" ""), "reply 24 0000002a0000000100000000000000000000000000000003"),
        (ask!("0" "24" "000186A5" "00000003" "00000004" ""), "reply 24 0000002a0000000100000000000000000000000000000003"),
        (ask!("0" "24" "000186A0" "00000002" "00000001" ""), "reply 24 0000002a0000000100000000000000000000000000000003"),
        (ask!("0" "1" "000186A0" "00000002" "00000004" ""), "refused 5 ee"),
        (
            ask!("0" "32" "000186A5" "00000002" "00000000" ""),
            "reply 32 0000002a00000001000000000000000000000000000000020000000300000003",
        ),
        (
            ask!("0" "33" "000186A0" "00000003" "00000003" ""),
            "reply 32 0000002a00000001000000000000000000000000000000020000000200000002ee",
        ),
        (
            ask!("0" "31" "000186A5" "00000001" "00000001" ""),
            "refused 5 eeeeeeeeeeeeeeeeeeeeeeeeeeeeeeeeeeeeeeeeeeeeeeeeeeeeeeeeeeeeee",
        ),
        (ask!("1" "0" "000186A5" "00000001" "00000001" ""), "silence -"),
        (ask!("0" "0" "000186A3" "00000009" "00000063" ""), "handover 100003 9 99 40 none -"),
        (ask!("0" "24" "000186A4" "00000003" "00000000" ""), "reply 24 0000002a0000000100000000000000000000000000000001"),
        ("ask 0 24 0000002A00000002", "reply 24 0000002a0000000100000001000000000000000000000000"),
        ("ask 0 0 0000002A0000000100000000000000000000000000000000", "refused 8 -"),
    ];

    /// What docs/SCOPE.md leaves to the program: docs/DECISIONS.md says how it was decided.
    const DECIDED: &[(&[u8], &str)] = &[
        (b"feed 1 -", "more 0; state 1 0 0 0 0 0 0; buffer ee"),
        (b"feed 1 - 80 -", "more 0; more 1; more 0; state 1 0 1 128 0 0 0; buffer ee"),
        (b"feed 0 80000000 -", "complete 0 4 -; more 0; state 0 0 0 0 0 0 0; buffer -"),
        (b"feed 0 8000000000", "complete 0 4 -; more 1; state 0 0 1 0 0 0 0; buffer -"),
        (b"feed 0 80000001 -", "refused 7 4; state 0 0 0 0 0 0 1; buffer -"),
        (b"feed 1048577 -", "refused 3"),
        (b"feed 18446744073709551615 00", "refused 3"),
        (b"stream 1 - 0 7 0", "used 0; state 1 0 0 0 0 0 0; buffer ee"),
        (b"stream 1 80 0 1 9", "used 1; state 1 0 1 128 0 0 0; buffer ee"),
        (b"stream 0 800000008000000000", "record 0 -; record 0 -; used 9; state 0 0 1 0 0 0 0; buffer -"),
        // A run that a record ends in is not used up, and the next begins behind the record.
        (
            b"stream 2 00000001AA80000001BB80000001CC 12 18446744073709551615",
            "record 2 aabb; record 1 cc; used 15; state 2 0 0 0 0 0 0; buffer ccbb",
        ),
        // It stops in the second record, whose first fragment stays in the buffer; and what is behind is not used.
        (
            b"stream 2 80000001AA00000001BB80000002CCDD80000000 6 6 0 1",
            "record 1 aa; refused 7 14; used 14; state 2 1 0 0 0 0 1; buffer bbee",
        ),
        (b"stream 1048577 - 1", "refused 3"),
        (b"stream 18446744073709551615 00", "refused 3"),
        (b"fragment - 0 18446744073709551615", "refused 9 -"),
        (b"state 18446744073709551615 0 0 0 0 0 0 0 -", "refused 6 0; state 18446744073709551615 0 0 0 0 0 0; buffer -"),
        (b"part 00 0000000000000000000000 1", "inside 00"),
    ];

    /// Lines that are not understood: the first fault from the left is told.
    const FAULTY: &[(&[u8], &str)] = &[
        (b"", "? an empty line"),
        (b" ", "? an empty line"),
        (b" read bool 0 00000000", "? an empty line"),
        (b"?", "? no question named ?"),
        (b"READ bool 0 00000000", "? no question named READ"),
        (b"rea\xff\td\x7f", "? no question named rea..d."),
        (b"0123456789abcdef0123456789abcdef+", "? no question named 0123456789abcdef0123456789abcdef"),
        (b"read", "? a kind is missing"),
        (b"read  0 00000000", "? a kind is missing"),
        (b"read Bool x", "? no kind named Bool"),
        (b"read \xc3\xa9", "? no kind named .."),
        (b"read bool", "? a number is missing"),
        (b"read bool  00000000", "? a number is missing"),
        (b"read bool x 0000000", "? not a number: x"),
        (b"read bool -1 00000000", "? not a number: -1"),
        (b"part 00 18446744073709551616 0", "? not a number: 18446744073709551616"),
        (b"part 00 0 1\r", "? not a number: 1."),
        (b"part 00 0 \xff", "? not a number: ."),
        (b"read bool 0", "? bytes are missing"),
        (b"read bool 0 ", "? bytes are missing"),
        (b"read bool 0 0", "? odd number of hex digits"),
        (b"read bool 0 0000000 more", "? odd number of hex digits"),
        (b"read bool 0 g", "? not hex: g"),
        (b"read bool 0 --", "? not hex: --"),
        (b"read bool 0 00000000\r", "? not hex: 00000000."),
        (b"read bool 0 00000000 ", "? more words than the line takes"),
        (b"read bool 9 00000000 -", "? more words than the line takes"),
        (b"feed", "? a number is missing"),
        (b"feed 1", "? bytes are missing"),
        (b"feed 1 ", "? bytes are missing"),
        (b"feed 1 - ", "? bytes are missing"),
        (b"feed 1  -", "? bytes are missing"),
        (b"feed 1048577 0", "? odd number of hex digits"),
        (b"feed 0 80000001 zz", "? not hex: zz"),
        (b"stream", "? a number is missing"),
        (b"stream  - 1", "? a number is missing"),
        (b"stream - 1", "? not a number: -"),
        (b"stream 1", "? bytes are missing"),
        (b"stream 1 ", "? bytes are missing"),
        (b"stream 1  1", "? bytes are missing"),
        (b"stream 1 8 x", "? odd number of hex digits"),
        (b"stream 1 8g x", "? not hex: 8g"),
        (b"stream 1 - ", "? a number is missing"),
        (b"stream 1 - 1 ", "? a number is missing"),
        (b"stream 1 - 1  1", "? a number is missing"),
        (b"stream 1 - 1 -", "? not a number: -"),
        (b"stream 0 80000001 1 x", "? not a number: x"),
        (b"stream 1 - 18446744073709551616", "? not a number: 18446744073709551616"),
        (b"stream 1048577 0", "? odd number of hex digits"),
        (b"stream 1048577 - 1 +1", "? not a number: +1"),
        (b"streams 1 -", "? no question named streams"),
        (b"choose", "? a mark is missing"),
        (b"choose 00 x z", "? neither 0 nor 1: 00"),
        (b"current_choose", "? a mark is missing"),
        (b"current_choose 0 1048577 -", "? room for more than 1048576 bytes"),
        (b"current_choos 0 24 -", "? no question named current_choos"),
        (b"read current_auth 0 -", "? no kind named current_auth"),
        (b"state 0 0 0 0 0 1 2 0 -", "? neither 0 nor 1: 2"),
        (b"state 0 0 0 0 0 1  0 -", "? a mark is missing"),
        (b"fragment - 1048577 0", "? room for more than 1048576 bytes"),
        (b"fragment - 1048577", "? a number is missing"),
        (b"fragment - 1048577 0 0", "? more words than the line takes"),
        (b"fragment - 18446744073709551615 0", "? room for more than 1048576 bytes"),
        (b"write bool 0 00000001 1048577 0", "? room for more than 1048576 bytes"),
        (b"write bool 5 - 1048577 1048578", "? room for more than 1048576 bytes"),
        (b"choose 0 1048577 0000002a00000002", "? room for more than 1048576 bytes"),
        (b"choose 0 1048577 0", "? odd number of hex digits"),
        (b"state 1048577 0 0 0 0 0 0 1048577 -", "? room for more than 1048576 bytes"),
        (b"ask", "? a mark is missing"),
        (b"ask  24 -", "? a mark is missing"),
        (b"ask 00 x z", "? neither 0 nor 1: 00"),
        (b"ask 0", "? a number is missing"),
        (b"ask 0 x z", "? not a number: x"),
        (b"ask 0 24", "? bytes are missing"),
        (b"ask 0 24 z", "? not hex: z"),
        (b"ask 0 1048577 0", "? odd number of hex digits"),
        (b"ask 0 1048577 - -", "? more words than the line takes"),
        (b"ask 0 1048577 -", "? room for more than 1048576 bytes"),
        (b"asks 0 24 -", "? no question named asks"),
        (b"path", "? bytes are missing"),
        (b"path  0 0 4 0", "? bytes are missing"),
        (b"path 0 x", "? odd number of hex digits"),
        (b"path -", "? a number is missing"),
        (b"path - 0", "? a number is missing"),
        (b"path - 0 x", "? not a number: x"),
        (b"path - 0 0 4", "? a number is missing"),
        (b"path - 0 0 1048577 -", "? not a number: -"),
        (b"path - 0 0 1048577 0 0", "? more words than the line takes"),
        (b"path - 9 9 1048577 0", "? room for more than 1048576 bytes"),
        (b"list", "? bytes are missing"),
        (b"list 0g 0 0 0 0", "? not hex: 0g"),
        (b"list 00 0  4 0", "? a number is missing"),
        (b"list 00 0 0 -1 0", "? not a number: -1"),
        (b"list 00 0 0 0 0 ", "? more words than the line takes"),
        (b"list 00 0 0 18446744073709551615 0", "? room for more than 1048576 bytes"),
        (b"lists 00 0 0 0 0", "? no question named lists"),
    ];

    #[test]
    fn worked_bytes() {
        let mut truth = Truth::new();
        for (line, expected) in WORKED.iter().chain(CALLS_AND_RESULTS).chain(BOTH_READINGS).chain(MOUNTING) {
            assert_eq!(answer(&mut truth, line.as_bytes()), *expected, "{line}");
        }
    }

    /// An opaque of so many bytes, in hex.
    fn opaque(length: usize) -> String {
        format!("{length:08x}{}{}", "5a".repeat(length), "00".repeat(length.next_multiple_of(4) - length))
    }

    #[test]
    fn paths_about_the_bound() {
        let mut truth = Truth::new();
        let mut answers = |line: String| answer(&mut truth, line.as_bytes());
        let (most, over) = (opaque(1_024), opaque(1_025));
        assert_eq!(answers(format!("read dirpath 0 {most}")), format!("took 1028 plain {most}"));
        assert_eq!(answers(format!("read dirpath 2 abcd{over}")), "refused 10 2");
        assert_eq!(answers(format!("write dirpath 0 {over} 0 9")), "refused 10 0");
        // A path that is cut comes first, and so does all that is wanting behind it.
        assert_eq!(answers(format!("read dirpath 0 {}", &over[..over.len() - 2])), "refused 1 0 1");
        let entry = |path: &str| format!("00000002{path}00000001{}00000000", opaque(300));
        let long = entry(&over);
        assert_eq!(answers(format!("read exports 0 {long}")), "refused 1 1348 4");
        assert_eq!(answers(format!("read exports 0 {long}00000000")), "refused 10 4");
        assert_eq!(answers(format!("read exports 0 {}{long}{long}00000000", entry(&most))), "refused 10 1348");
        let fits = entry(&most).replacen("00000002", "00000001", 1);
        assert_eq!(answers(format!("read exports 0 {}00000000", entry(&most))), format!("took 1348 loose {fits}00000000"));
        // In writing the number alone, after 9, 3 and 4, and before 5.
        assert_eq!(answers(format!("path {over} 4 1025 1 0")), "refused 10 ee");
        assert_eq!(answers(format!("path {over} 5 1025 1 1")), "refused 10 ee");
        assert_eq!(answers(format!("path {over} 8 1025 1 0")), "refused 4 ee");
        assert_eq!(answers(format!("path {over} 4 1025 0 1")), "refused 9 -");
        assert_eq!(answers(format!("path {over} 4 1024 1 0")), "refused 5 ee");
        assert_eq!(answers(format!("list {long}00000000 0 1 1 0")), "refused 10 ee");
        assert_eq!(answers(format!("list {long}00000000 0 2 1 0")), "refused 4 ee");
        assert_eq!(answers(format!("list {long} 0 1 1 0")), "refused 4 ee");
        assert_eq!(answers(format!("list {long}00000000 0 1 1 2")), "refused 9 ee");
        assert_eq!(answers(format!("list {long}00000000 1348 0 4 0")), "wrote 4 00000000");
        // A call.
        let call = format!("0000002a0000000000000002000186a50000000300000001{}", "00000000".repeat(4));
        assert_eq!(answers(format!("ask 0 0 {call}{over}")), "refused 10 40 -");
        assert_eq!(answers(format!("ask 0 0 {call}{}", &over[..over.len() - 8])), "refused 1 40 4 -");
        assert_eq!(answers(format!("ask 0 0 {call}{most}")), "mnt 44 1024 1068 -");
    }

    #[test]
    fn decided_lines() {
        let mut truth = Truth::new();
        for (line, expected) in DECIDED.iter().chain(FAULTY) {
            assert_eq!(answer(&mut truth, line), *expected, "{}", line.escape_ascii());
        }
    }

    #[test]
    fn longest_line() {
        let mut truth = Truth::new();
        let line = |zeros: usize| ["part 00 ", &"0".repeat(zeros), " 1"].concat();
        let most = LONGEST - line(0).len();
        assert_eq!(answer(&mut truth, line(most).as_bytes()), "inside 00");
        let too_long = "? the line has more than 2200000 characters";
        assert_eq!(answer(&mut truth, line(most + 1).as_bytes()), too_long);
        assert_eq!(answer(&mut truth, &[b'?'; LONGEST + 1]), too_long);
    }
}
