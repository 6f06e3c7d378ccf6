//! Messages at the bound: of 1,048,576 bytes, of one less and of one more. The program `limits` asks the proved code the
//! same. Such bytes are too long for a line: they are made by a rule, and a line names them by their length and a digest.
use crate::answers::{Choice, Fed, State, BOUND};
use crate::lent::EMPTY;
use crate::lines::refusal;
use crate::model::Model;
use crate::shapes::{kind, Reading};
use crate::truth::Truth;

/// The length of every output buffer that is not named, and of the longest stream.
const ROOM: usize = BOUND + 8;

/// All questions, each with its answer.
pub fn lines() -> Vec<String> {
    let mut asked = Asked { truth: Truth::new(), list: Vec::new() };
    asked.readings();
    asked.writings();
    asked.choices();
    asked.streams();
    asked.fragments();
    asked.list
}

/// Bytes by their place.
fn ruled(length: usize) -> Vec<u8> {
    (0..length).map(|place| (place % 251) as u8).collect()
}

/// Such bytes, with words at some places.
fn with(words: &[(usize, u32)], length: usize) -> Vec<u8> {
    let mut bytes = ruled(length);
    for (place, word) in words {
        bytes[*place..place + 4].copy_from_slice(&word.to_be_bytes());
    }
    bytes
}

/// Such bytes, with words in front of them.
fn headed(words: &[u32], length: usize) -> Vec<u8> {
    let words: Vec<_> = words.iter().enumerate().map(|(index, word)| (4 * index, *word)).collect();
    with(&words, length)
}

fn digest(bytes: &[u8]) -> u64 {
    bytes.iter().fold(0, |sum, byte| (sum * 31 + u64::from(*byte)) % 4_294_967_291)
}

/// A call of the null procedure of NFS whose message is of that length. The credential fills it; an AUTH_UNIX one is all groups.
fn call(flavor: u32, length: usize) -> Vec<u8> {
    let body = BOUND - 40;
    let mut words = vec![42, 0, 2, 100_003, 3, 0, flavor, body as u32];
    if flavor == 1 {
        words.extend([7, 0, 1, 2, (body - 20) as u32 / 4]);
    }
    let mut bytes = headed(&words, length);
    let end = length.min(BOUND);
    bytes[BOUND - 8..end].fill(0);
    bytes
}

struct Asked {
    truth: Truth,
    list: Vec<String>,
}

impl Asked {
    fn say(&mut self, question: String, answer: String) {
        self.list.push(format!("{question}: {answer}"));
    }

    fn read(&mut self, name: &str, message: &[u8], at: usize) {
        let mut out = vec![EMPTY; ROOM];
        let answer = match self.truth.read(kind(name).expect("the kind is known"), message, at) {
            Ok(took) => {
                out[..took.length].copy_from_slice(&self.truth.rewriting);
                format!("took {} {} {}", took.next, if took.plain { "plain" } else { "loose" }, took.length)
            },
            Err(refused) => refusal(&refused),
        };
        let first = message.first_chunk().map_or(0, |word| u32::from_be_bytes(*word));
        self.say(format!("read {name} {first} {at} {}", message.len()), format!("{answer} {}", digest(&out)));
    }

    fn readings(&mut self) {
        for length in [BOUND - 1, BOUND, BOUND + 1] {
            self.read("opaque", &headed(&[BOUND as u32 - 4], length), 0);
        }
        // One byte of padding, which is not zero; and one byte more than there is.
        self.read("opaque", &headed(&[BOUND as u32 - 5], BOUND), 0);
        self.read("opaque", &headed(&[BOUND as u32 - 3], BOUND), 0);
        let words = BOUND as u32 / 4 - 1;
        for length in [BOUND - 1, BOUND, BOUND + 1] {
            self.read("words", &headed(&[words], length), 0);
        }
        self.read("words", &headed(&[words + 1], BOUND), 0);
        let message = ruled(BOUND + 1);
        for at in [BOUND - 4, BOUND - 3, BOUND, BOUND + 1] {
            self.read("bool", &message[..BOUND], at);
        }
        // Refusal 3 comes before 9.
        for at in [0, BOUND + 1, BOUND + 2] {
            self.read("bool", &message, at);
        }
        for length in [BOUND - 1, BOUND, BOUND + 1] {
            self.read("rpc_msg", &call(0, length), 0);
        }
        // READ's data behind success, no attributes, a count and the end of the file.
        for length in [BOUND - 1, BOUND, BOUND + 1] {
            self.read("read3res", &with(&[(0, 0), (4, 0), (12, 1), (16, BOUND as u32 - 20)], length), 0);
        }
        // WRITE's data behind a handle of four bytes, an offset, a count and FILE_SYNC.
        for length in [BOUND - 1, BOUND, BOUND + 1] {
            self.read("write3args", &with(&[(0, 4), (20, 2), (24, BOUND as u32 - 28)], length), 0);
        }
    }

    /// A piece of a source of that length, written: by the rules of docs/SCOPE.md, for the crate has no pieces.
    fn write(&mut self, name: &str, width: usize, length: usize, piece: (usize, usize), room: usize, start: usize) {
        let (source, (at, count)) = (ruled(length), piece);
        let mut out = vec![EMPTY; room];
        let size = 4 + (count * width).next_multiple_of(4);
        let answer = if start > room {
            String::from("refused 9")
        } else if length > BOUND {
            String::from("refused 3")
        } else if at + count * width > length {
            String::from("refused 4")
        } else if size > BOUND {
            String::from("refused 3")
        } else if start + size > room {
            String::from("refused 5")
        } else {
            // The crate writes the message that these bytes are.
            let mut message = (count as u32).to_be_bytes().to_vec();
            message.extend(&source[at..at + count * width]);
            message.resize(size, 0);
            self.truth.read(kind(name).expect("the kind is known"), &message, 0).expect("the message is read");
            out[start..start + size].copy_from_slice(&self.truth.rewriting);
            format!("wrote {}", start + size)
        };
        let question = format!("write {name} {length} {at} {count} {room} {start}");
        self.say(question, format!("{answer} {}", digest(&out)));
    }

    fn writings(&mut self) {
        let largest = BOUND - 4;
        for (length, piece, room, start) in [
            (BOUND, (0, largest), BOUND, 0),
            (BOUND, (0, largest), BOUND - 1, 0),
            (BOUND, (4, largest), ROOM, 8),
            (BOUND, (4, largest), ROOM, 9),
            (BOUND, (4, largest), ROOM, ROOM + 1),
            (BOUND, (5, largest), ROOM, 0),
            (BOUND, (0, largest - 1), ROOM, 0),
            (BOUND, (0, largest + 1), ROOM, 0),
            (BOUND + 1, (0, 0), ROOM, 0),
        ] {
            self.write("opaque", 1, length, piece, room, start);
        }
        for count in [largest / 4, largest / 4 + 1] {
            self.write("words", 4, BOUND, (0, count), ROOM, 0);
        }
    }

    fn choices(&mut self) {
        for flavor in [0, 1] {
            for length in [BOUND - 1, BOUND, BOUND + 1] {
                let mut out = [EMPTY; 24];
                let answer = match self.truth.choose(Reading::Crate, &call(flavor, length), false, &mut out) {
                    Choice::HandOver { program, version, procedure, arguments, auth_unix } => {
                        let groups = auth_unix
                            .map_or(String::from("none"), |auth| format!("{} {}", auth.gids.place, auth.gids.count));
                        format!("handover {program} {version} {procedure} {arguments} {groups}")
                    },
                    Choice::Reply => String::from("reply"),
                    Choice::Silence => String::from("silence"),
                    Choice::Refused(refused) => refusal(&refused),
                };
                self.say(format!("choose {flavor} {length}"), format!("{answer} {}", digest(&out)));
            }
        }
    }

    /// Runs of a stream into a buffer of that capacity. The stream has a fragment, and then a last one, of these lengths;
    /// or, where the second is 0, only a last one.
    fn feed(&mut self, fragments: [usize; 2], capacity: usize, lengths: &[usize]) {
        let [first, second] = fragments;
        let mut stream = headed(&[if second == 0 { 1 << 31 } else { 0 } | first as u32], ROOM);
        if second != 0 {
            stream[4 + first..8 + first].copy_from_slice(&(1 << 31 | second as u32).to_be_bytes());
        }
        let mut question = format!("feed {capacity} {first} {second}");
        for length in lengths {
            question += &format!(" {length}");
        }
        let (mut state, mut record) = (State::fresh(capacity as u64), vec![EMPTY; capacity]);
        let (mut at, mut answers, mut records) = (0, Vec::new(), Vec::new());
        for length in lengths {
            let fed = Model::FAULTLESS.feed(&mut state, &stream[at..at + length], &mut record);
            answers.push(match fed {
                Fed::More { used } => format!("more {used}"),
                Fed::Complete { length, used } => {
                    records.push(record[..length].to_vec());
                    format!("complete {length} {used}")
                },
                Fed::Refused { number, used } => format!("refused {number} {used}"),
            });
            at += length;
        }
        let (crates, _) = self.truth.records(&stream[..at], capacity);
        assert!(crates.complete.iter().map(|(record, _)| record).eq(&records), "the crate makes other records");
        self.say(question, format!("{} {}", answers.join(" "), digest(&record)));
    }

    fn streams(&mut self) {
        for capacity in [BOUND, BOUND + 1] {
            self.say(format!("fresh {capacity}"), String::from(if capacity > BOUND { "refused 3" } else { "ready" }));
        }
        self.feed([BOUND, 0], BOUND, &[BOUND + 4]);
        self.feed([BOUND, 0], BOUND, &[3, BOUND, 1]);
        self.feed([BOUND, 0], BOUND - 1, &[BOUND + 4]);
        self.feed([BOUND + 1, 0], BOUND, &[ROOM]);
        // Two fragments: they fill the buffer, or would pass its end by one byte.
        let half = BOUND / 2;
        for second in [half, half + 1] {
            self.feed([half, second], BOUND, &[ROOM]);
            self.feed([half, second], BOUND, &[half + 6, 2, half]);
        }
        // A state that says more than the bound fits no buffer, not even its own.
        let mut state = State::fresh(BOUND as u64 + 1);
        let fed = Model::FAULTLESS.feed(&mut state, &ruled(4), &mut vec![EMPTY; BOUND + 1]);
        assert_eq!(fed, Fed::Refused { number: 6, used: 0 });
        self.say(format!("state {}", BOUND + 1), String::from("refused 6 0"));
    }

    fn fragments(&mut self) {
        for (length, room, start) in [
            (BOUND, BOUND + 4, 0),
            (BOUND, BOUND + 3, 0),
            (BOUND, ROOM, 4),
            (BOUND, ROOM, 5),
            (BOUND, ROOM, ROOM),
            (BOUND, ROOM, ROOM + 1),
            (BOUND + 1, ROOM, 0),
            (BOUND + 1, ROOM, ROOM + 1),
        ] {
            let mut out = vec![EMPTY; room];
            let answer = match self.truth.fragment(&ruled(length), &mut out, start) {
                Ok(next) => format!("wrote {next}"),
                Err(unwritten) => format!("refused {}", unwritten.number),
            };
            self.say(format!("fragment {length} {room} {start}"), format!("{answer} {}", digest(&out)));
        }
    }
}
