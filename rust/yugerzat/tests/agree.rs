//! The functions for single values agree with [`judge`] and [`rewrite`], which read and write the same kinds by their
//! numbers: on random words, most of them small, so that flags, tags and lengths often fit.
use yugerzat::*;

/// Numbers that are the same in every run.
struct Random(u64);

impl Random {
    fn next(&mut self) -> u32 {
        self.0 ^= self.0 << 13;
        self.0 ^= self.0 >> 7;
        self.0 ^= self.0 << 17;
        (self.0 >> 24) as u32
    }

    fn message(&mut self) -> Vec<u8> {
        let words = self.next() % 24;
        let mut bytes = Vec::new();
        for _ in 0..words {
            let word = match self.next() % 8 {
                0..=2 => self.next() % 2,
                3..=5 => self.next() % 9,
                6 => self.next() % 40,
                _ => self.next(),
            };
            bytes.extend(word.to_be_bytes());
        }
        bytes.truncate(bytes.len() - (self.next() as usize % 4).min(bytes.len()));
        bytes
    }
}

const ROUNDS: u32 = 200_000;

/// Something with a writer.
trait Value {
    fn write(&self, out: &mut [u8], start: usize) -> Result<usize, Refusal>;
}

macro_rules! values {
    ($($type:ty),*) => { $(
        impl Value for $type {
            fn write(&self, out: &mut [u8], start: usize) -> Result<usize, Refusal> {
                self.write(out, start)
            }
        }
    )* };
}
values!(Fattr3, Sattr3, Diropargs3<'_>, AuthUnix<'_>, Message<'_>, current::Message<'_>);
values!(mount::Dirpath<'_>, mount::Mountres3<'_>, mount::Exports<'_>, mount::Mapping);

/// Compares a value's reading and writing with judging and rewriting, in one round.
fn agree<T: Value>(kind: Kind, message: &[u8], at: usize, read: Result<Reading<T>, Refusal>) -> bool {
    let (mut whole, mut parts) = ([0xEE; 160], [0xEE; 160]);
    let what = || format!("{kind} {message:02x?} {at}");
    let judged = judge(kind, message, at);
    match (rewrite(kind, message, at, &mut whole), read) {
        (Ok(rewritten), Ok(read)) => {
            let Rewritten { next, plain, size } = rewritten;
            assert_eq!(judged, Ok(Judged { next, plain, size }), "{}", what());
            assert_eq!((next, plain), (read.next, read.plain), "{}", what());
            assert_eq!(read.value.write(&mut parts, 0), Ok(size), "{}", what());
            assert_eq!(whole, parts, "{}", what());
            // Plain is: the bytes used are the rewriting.
            assert_eq!(plain, message[at..next] == whole[..size], "{}", what());

            // A byte too little is refused, and both say what is needed.
            let none = Refusal::NoRoom { needed: size };
            let mut short = vec![0xEE; size - 1];
            assert_eq!(rewrite(kind, message, at, &mut short), Err(none), "{}", what());
            assert_eq!(read.value.write(&mut short, 0), Err(none), "{}", what());
            assert!(short.iter().all(|byte| *byte == 0xEE), "{}", what());
            true
        },
        (Err(one), Err(other)) => {
            assert_eq!(one, other, "{}", what());
            assert_eq!(judged, Err(one), "{}", what());
            false
        },
        (one, other) => panic!("{}: {one:?}, but {:?}", what(), other.err()),
    }
}

/// How many of the random messages were taken.
fn rounds(mut round: impl FnMut(&[u8], usize) -> bool) -> u32 {
    let mut random = Random(0x9E37_79B9_7F4A_7C15);
    let mut taken = 0;
    for _ in 0..ROUNDS {
        let message = random.message();
        let at = random.next() as usize % 9;
        taken += u32::from(round(&message, at));
    }
    println!("{taken} of {ROUNDS} were taken");
    taken
}

#[test]
fn fattr3_agrees() {
    assert!(rounds(|message, at| agree(Kind::Fattr3, message, at, Fattr3::read(message, at))) > 1000);
}

#[test]
fn sattr3_agrees() {
    assert!(rounds(|message, at| agree(Kind::Sattr3, message, at, Sattr3::read(message, at))) > 1000);
}

#[test]
fn diropargs3_agrees() {
    assert!(rounds(|message, at| agree(Kind::Diropargs3, message, at, Diropargs3::read(message, at))) > 1000);
}

#[test]
fn mounts_and_ports_agree() {
    use mount::{Dirpath, Exports, Mapping, Mountres3};
    assert!(rounds(|message, at| agree(Kind::Dirpath, message, at, Dirpath::read(message, at))) > 1000);
    assert!(rounds(|message, at| agree(Kind::Mountres3, message, at, Mountres3::read(message, at))) > 1000);
    assert!(rounds(|message, at| agree(Kind::Exports, message, at, Exports::read(message, at))) > 1000);
    assert!(rounds(|message, at| agree(Kind::Mapping, message, at, Mapping::read(message, at))) > 1000);
}

#[test]
fn messages_agree() {
    let mut replies = 0;
    let taken = rounds(|message, at| {
        let read = Message::read(message, at);
        replies += u32::from(matches!(read, Ok(Reading { value: Message { body: Body::Reply(_), .. }, .. })));
        agree(Kind::RpcMsg, message, at, read)
    });
    println!("{replies} of these were replies");
    assert!(replies > 1000 && taken - replies > 1000);
}

/// The message, with the body tag of a reply.
fn reply(message: &[u8], at: usize) -> Vec<u8> {
    let mut message = message.to_vec();
    if let Some(tag) = message.get_mut(at + 4..at + 8) {
        tag.copy_from_slice(&[0, 0, 0, 1]);
    }
    message
}

#[test]
fn current_messages_agree() {
    let mut new = 0;
    let taken = rounds(|message, at| {
        let reply = reply(message, at);
        let read = current::Message::read(&reply, at);
        new += u32::from(matches!(read, Ok(read) if Message::try_from(read.value).is_err()));
        agree(Kind::CurrentRpcMsg, &reply, at, read);
        agree(Kind::CurrentRpcMsg, message, at, current::Message::read(message, at))
    });
    println!("{new} of these have a case of the current reading alone");
    assert!(new > 1000 && taken > 1000);
}

/// What nfsserve's reading is, where the current one of that place is known.
fn elder(read: Reading<current::Message<'_>>, at: usize) -> Result<Reading<Message<'_>>, Refusal> {
    let Reading { value, next, plain } = read;
    match (Message::try_from(value), value.body) {
        (Ok(value), _) => Ok(Reading { value, next, plain }),
        (_, current::Body::Reply(current::Reply::Accepted { verf, stat: current::AcceptStat::SystemErr })) => {
            let body = Body::Reply(Reply::Accepted { verf, stat: AcceptStat::GarbageArgs });
            Ok(Reading { value: Message { xid: value.xid, body }, next, plain: false })
        },
        (_, current::Body::Reply(current::Reply::AuthError(_))) => Err(Refusal::Undeclared { place: at + 16 }),
        (_, body) => panic!("nfsserve has {body:?}"),
    }
}

/// The two readings, and the two choices, differ by the lists, and by nothing else.
#[test]
fn readings_agree_but_for_the_lists() {
    let (mut statuses, mut numbers, mut versions) = (0, 0, 0);
    rounds(|message, at| {
        for message in [message, &reply(message, at)] {
            let read = current::Message::read(message, at);
            let due = read.and_then(|read| elder(read, at));
            assert_eq!(Message::read(message, at), due, "{message:02x?} {at}");
            statuses += u32::from(due.is_ok() && matches!(read, Ok(read) if Message::try_from(read.value).is_err()));
            numbers += u32::from(due.is_err() && read.is_ok());

            let (from, seen) = (&message[at.min(message.len())..], at % 2 == 1);
            let (mut choice, read) = (current::choose(from, seen), current::Message::read(from, 0));
            match (&mut choice, read.and_then(|read| elder(read, 0))) {
                (Err(Refusal::ReplyCame), Err(refusal)) => choice = Err(refusal),
                // MSG_DENIED, RPC_MISMATCH, 2, 2
                (Ok(Choice::Reply(reply)), _) if reply[8..] == [0, 0, 0, 1, 0, 0, 0, 0, 0, 0, 0, 2, 0, 0, 0, 2] => {
                    reply[16..].fill(0);
                    versions += 1;
                },
                _ => {},
            }
            assert_eq!(choose(from, seen), choice, "{from:02x?}");
        }
        true
    });
    println!("{statuses} statuses, {numbers} authentication numbers and {versions} versions differ");
    assert!(statuses > 200 && numbers > 1000 && versions > 1000);
}

#[test]
fn auth_unix_agrees() {
    // A body begins at its own start.
    assert!(rounds(|body, _| agree(Kind::AuthUnix, body, 0, AuthUnix::read(body))) > 1000);
}
