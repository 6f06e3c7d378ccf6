//! What the functions answer, in the words of docs/SCOPE.md.

/// The bound of refusal 3.
pub const BOUND: usize = 1_048_576;

/// A refusal: its number, its place where it has one (1, 2, and 10 in reading), and how many bytes are wanting (1).
#[derive(Clone, Copy, Debug, PartialEq, Eq)]
pub struct Refusal {
    pub number: u32,
    pub place: usize,
    /// In 64 bits on every machine: a word list may want four times 2^32.
    pub wanting: u64,
}

impl Refusal {
    /// A refusal that has no place.
    pub const fn plain(number: u32) -> Refusal {
        Refusal { number, place: 0, wanting: 0 }
    }

    /// The message ends inside the item at a place: so many more bytes finish it, or its length word where that was cut.
    pub const fn ended(place: usize, wanting: u64) -> Refusal {
        Refusal { number: 1, place, wanting }
    }

    /// The word at a place has a number that is not declared.
    pub const fn undeclared(place: usize) -> Refusal {
        Refusal { number: 2, place, wanting: 0 }
    }

    /// A path is over the bound; its length word stands at a place.
    pub const fn long_path(place: usize) -> Refusal {
        Refusal { number: LONG_PATH, place, wanting: 0 }
    }
}

/// The refusal of a path over the bound.
pub const LONG_PATH: u32 = 10;

/// The highest number of a refusal.
pub const LAST_REFUSAL: u32 = LONG_PATH;

/// A message was read; what it is written as stands in a buffer beside this.
#[derive(Clone, Copy, Debug, PartialEq, Eq)]
pub struct Took {
    pub next: usize,
    pub plain: bool,
    /// The length of the rewriting.
    pub length: usize,
}

/// The marks of a message's pieces, in the order of its fields: whether the padding behind each was all zero.
#[derive(Clone, Copy, Debug, Default, PartialEq, Eq)]
pub struct Marks {
    pub pieces: usize,
    pub clean: [bool; 2],
}

impl Marks {
    pub fn push(&mut self, clean: bool) {
        self.clean[self.pieces] = clean;
        self.pieces += 1;
    }

    pub fn each(&self) -> &[bool] {
        &self.clean[..self.pieces]
    }
}

/// A part of a message: the place of its first byte, and a count (of bytes, or of words of four bytes).
#[derive(Clone, Copy, Debug, PartialEq, Eq)]
pub struct Piece {
    pub place: usize,
    pub count: usize,
}

#[derive(Clone, Copy, Debug, PartialEq, Eq)]
pub struct AuthUnix {
    pub stamp: u32,
    pub name: Piece,
    pub uid: u32,
    pub gid: u32,
    pub gids: Piece,
}

impl AuthUnix {
    /// The value that seven figures are.
    pub fn of(figures: &[u64]) -> AuthUnix {
        let (word, piece) = (
            |at: usize| figures[at] as u32,
            |at: usize| Piece { place: figures[at] as usize, count: figures[at + 1] as usize },
        );
        AuthUnix { stamp: word(0), name: piece(1), uid: word(3), gid: word(4), gids: piece(5) }
    }

    pub fn figures(&self) -> [u64; 7] {
        let (name, gids) = (self.name, self.gids);
        [
            u64::from(self.stamp),
            name.place as u64,
            name.count as u64,
            u64::from(self.uid),
            u64::from(self.gid),
            gids.place as u64,
            gids.count as u64,
        ]
    }
}

/// The choice of program. A reply's 24 bytes stand in a buffer beside this.
#[derive(Clone, Copy, Debug, PartialEq, Eq)]
pub enum Choice {
    HandOver { program: u32, version: u32, procedure: u32, arguments: usize, auth_unix: Option<AuthUnix> },
    Reply,
    Silence,
    Refused(Refusal),
}

/// The length of each reply of the choice of program.
pub const REPLY: usize = 24;

/// What is answered to a message for all programs. A reply's bytes stand in a buffer beside this.
#[derive(Clone, Copy, Debug, PartialEq, Eq)]
pub enum Asked {
    /// Handed over to NFS.
    HandOver {
        program: u32,
        version: u32,
        procedure: u32,
        arguments: usize,
        auth_unix: Option<AuthUnix>,
    },
    /// A reply of so many bytes.
    Reply(usize),
    Silence,
    Refused(Refusal),
    /// A call that was read and is handed on, and the place behind its arguments.
    Call {
        call: Call,
        next: usize,
        auth_unix: Option<AuthUnix>,
    },
}

/// A call of the mount protocol or of the port mapper, with its arguments.
#[derive(Clone, Copy, Debug, PartialEq, Eq)]
pub enum Call {
    Mnt(Piece),
    Umnt(Piece),
    Export,
    /// Program, version, protocol and port.
    Getport([u32; 4]),
}

impl From<Choice> for Asked {
    fn from(choice: Choice) -> Asked {
        match choice {
            Choice::HandOver { program, version, procedure, arguments, auth_unix } => {
                Asked::HandOver { program, version, procedure, arguments, auth_unix }
            },
            Choice::Reply => Asked::Reply(REPLY),
            Choice::Silence => Asked::Silence,
            Choice::Refused(refusal) => Asked::Refused(refusal),
        }
    }
}

/// The state of the record assembler.
#[derive(Clone, Copy, Debug, Default, PartialEq, Eq)]
pub struct State {
    pub capacity: u64,
    pub placed: u64,
    /// The header bytes so far, and their value.
    pub count: u64,
    pub value: u64,
    /// The bytes left in the fragment.
    pub left: u64,
    pub last: bool,
    pub stopped: bool,
}

impl State {
    pub fn fresh(capacity: u64) -> State {
        State { capacity, ..State::default() }
    }

    /// The state that seven numbers are: for `last` and `stopped` each number but 0 is yes.
    pub fn of(numbers: [u64; STATE_FIGURES]) -> State {
        let [capacity, placed, count, value, left, last, stopped] = numbers;
        State { capacity, placed, count, value, left, last: last != 0, stopped: stopped != 0 }
    }

    pub fn numbers(&self) -> [u64; STATE_FIGURES] {
        let State { capacity, placed, count, value, left, last, stopped } = *self;
        [capacity, placed, count, value, left, u64::from(last), u64::from(stopped)]
    }
}

/// What a feed answers, with the count of bytes used.
#[derive(Clone, Copy, Debug, PartialEq, Eq)]
pub enum Fed {
    More { used: usize },
    Complete { length: usize, used: usize },
    Refused { number: u32, used: usize },
}

/// Why nothing was written: the refusal's number, and how many bytes the writing needs where there is no room (5).
#[derive(Clone, Copy, Debug, PartialEq, Eq)]
pub struct Unwritten {
    pub number: u32,
    pub needed: usize,
}

impl Unwritten {
    /// A refusal that says nothing more.
    pub const fn plain(number: u32) -> Unwritten {
        Unwritten { number, needed: 0 }
    }

    pub const fn no_room(needed: usize) -> Unwritten {
        Unwritten { number: 5, needed }
    }
}

/// A writer's answer: the next place, or why there is none.
pub type Wrote = Result<usize, Unwritten>;

/// Answers that are no refusal. A choice is handed over, replied to or met with silence; a feed wants more or is complete; a
/// call of another program is handed on.
pub const DONE: u32 = 0;
pub const HAND_OVER: u32 = 100;
pub const REPLIED: u32 = 101;
pub const SILENCE: u32 = 102;
pub const MORE: u32 = 103;
pub const COMPLETE: u32 = 104;
pub const MNT: u32 = 105;
pub const UMNT: u32 = 106;
pub const EXPORT: u32 = 107;
pub const GETPORT: u32 = 108;

/// Answers to a call that is itself at fault: a number that does not fit its field, a list that is too short, a kind that
/// is not there.
pub const WIDE_NUMBER: u32 = 253;
pub const SHORT_LIST: u32 = 254;
pub const UNKNOWN_KIND: u32 = 255;

/// How many figures each function has that is no reader of a `Value`. (Rewriting and judging have the same.)
pub const READ_FIGURES: usize = 3;
pub const MARKS_FIGURES: usize = 5;
pub const CHOOSE_FIGURES: usize = 12;
pub const FEED_FIGURES: usize = 2;
pub const STATE_FIGURES: usize = 7;
pub const WRITE_FIGURES: usize = 1;
pub const PART_FIGURES: usize = 2;
pub const ASK_FIGURES: usize = 13;
pub const SAME_FIGURES: usize = 1;

/// What an exported function tells: its answer, and the figures that it puts at the front of the list lent for them, as
/// include/yugerzat.h has them.
#[derive(Clone, Debug, PartialEq, Eq)]
pub struct Told {
    pub answer: u32,
    pub figures: Vec<u64>,
}

impl Told {
    pub fn done(figures: Vec<u64>) -> Told {
        Told { answer: DONE, figures }
    }

    /// The call is at fault, and no figure is touched.
    pub fn untouched(answer: u32) -> Told {
        Told { answer, figures: Vec::new() }
    }

    /// What a reader that refuses tells: the refusal's place, or 0; what is wanting, or 0; and zeros for all other figures.
    pub fn refused(refusal: &Refusal, count: usize) -> Told {
        let mut figures = vec![0; count];
        figures[0] = refusal.place as u64;
        figures[1] = refusal.wanting;
        Told { answer: refusal.number, figures }
    }

    /// What judging a message of any kind tells.
    pub fn judged(answer: &Result<Took, Refusal>) -> Told {
        match answer {
            Ok(took) => Told::done(vec![took.next as u64, u64::from(took.plain), took.length as u64]),
            Err(refusal) => Told::refused(refusal, READ_FIGURES),
        }
    }

    /// What rewriting it into so much room tells: the same, or what the rewriting needs.
    pub fn rewritten(answer: &Result<Took, Refusal>, room: usize) -> Told {
        match answer {
            Ok(took) if took.length > room => Told { answer: 5, figures: vec![0, 0, took.length as u64] },
            _ => Told::judged(answer),
        }
    }

    /// What marking it tells.
    pub fn marked(answer: &Result<Took, Refusal>, marks: &Marks) -> Told {
        match answer {
            Ok(took) => {
                let [first, second] = marks.clean.map(u64::from);
                Told::done(vec![took.next as u64, u64::from(took.plain), marks.pieces as u64, first, second])
            },
            Err(refusal) => Told::refused(refusal, MARKS_FIGURES),
        }
    }

    /// What a function of any kind with so many figures tells where there is no such kind.
    pub fn unknown_kind(figures: usize) -> Told {
        Told { answer: UNKNOWN_KIND, figures: vec![0; figures] }
    }

    pub fn chose(choice: &Choice) -> Told {
        let mut figures = vec![0; CHOOSE_FIGURES];
        let answer = match choice {
            Choice::HandOver { program, version, procedure, arguments, auth_unix } => {
                let numbers = [*program, *version, *procedure].map(u64::from);
                figures[..3].copy_from_slice(&numbers);
                figures[3] = *arguments as u64;
                if let Some(auth) = auth_unix {
                    figures[4] = 1;
                    figures[5..].copy_from_slice(&auth.figures());
                }
                HAND_OVER
            },
            Choice::Reply => {
                figures[0] = REPLY as u64;
                REPLIED
            },
            Choice::Silence => SILENCE,
            Choice::Refused(refusal) => return Told::refused(refusal, CHOOSE_FIGURES),
        };
        Told { answer, figures }
    }

    pub fn asked(asked: &Asked) -> Told {
        let mut figures = [0; ASK_FIGURES];
        let (answer, auth_unix) = match asked {
            Asked::HandOver { program, version, procedure, arguments, auth_unix } => {
                figures[..3].copy_from_slice(&[*program, *version, *procedure].map(u64::from));
                figures[3] = *arguments as u64;
                (HAND_OVER, *auth_unix)
            },
            Asked::Call { call, next, auth_unix } => {
                figures[4] = *next as u64;
                let path = |path: &Piece| [path.place as u64, path.count as u64, 0, 0];
                let (answer, arguments) = match call {
                    Call::Mnt(piece) => (MNT, path(piece)),
                    Call::Umnt(piece) => (UMNT, path(piece)),
                    Call::Export => (EXPORT, [0; 4]),
                    Call::Getport(mapping) => (GETPORT, mapping.map(u64::from)),
                };
                figures[..4].copy_from_slice(&arguments);
                (answer, *auth_unix)
            },
            Asked::Reply(length) => {
                figures[0] = *length as u64;
                (REPLIED, None)
            },
            Asked::Silence => (SILENCE, None),
            Asked::Refused(refusal) => return Told::refused(refusal, ASK_FIGURES),
        };
        if let Some(auth) = auth_unix {
            figures[5] = 1;
            figures[6..].copy_from_slice(&auth.figures());
        }
        Told { answer, figures: figures.to_vec() }
    }

    /// Whether two export lists are the same, or the number of a refusal.
    pub fn same(same: Result<bool, u32>) -> Told {
        same.map_or_else(|answer| Told { answer, figures: vec![0] }, |same| Told::done(vec![u64::from(same)]))
    }

    pub fn fed(fed: &Fed) -> Told {
        let (answer, used, length) = match *fed {
            Fed::More { used } => (MORE, used, 0),
            Fed::Complete { length, used } => (COMPLETE, used, length),
            Fed::Refused { number, used } => (number, used, 0),
        };
        Told { answer, figures: vec![used as u64, length as u64] }
    }

    /// A number that is wide is no refusal: nothing is touched.
    pub fn wrote(wrote: &Wrote) -> Told {
        match wrote {
            Ok(next) => Told::done(vec![*next as u64]),
            Err(Unwritten { number: WIDE_NUMBER, .. }) => Told::untouched(WIDE_NUMBER),
            Err(Unwritten { number, needed }) => Told { answer: *number, figures: vec![*needed as u64] },
        }
    }

    pub fn part(inside: bool, at: usize, count: usize) -> Told {
        if inside {
            Told::done(vec![at as u64, count as u64])
        } else {
            Told { answer: 4, figures: vec![0, 0] }
        }
    }
}
