//! What a stream yields: the same, however it is cut into runs. No model is needed to see that: two cuttings of one stream
//! tell.
use crate::answers::Fed;

/// What all feeds of a stream gave together. The state and the record buffer that they left stand beside this.
#[derive(Clone, Debug, Default, PartialEq, Eq)]
pub struct Yielded {
    /// Each record, with the count of stream bytes used up to its end.
    pub records: Vec<(Vec<u8>, usize)>,
    /// The number of the first refusal, and the bytes used up to and with that feed.
    pub refused: Option<(u32, usize)>,
    /// The bytes used in all.
    pub used: usize,
}

impl Yielded {
    /// Feeds a stream in runs of these lengths. Each begins with the first byte that was not used yet; it may be empty, and
    /// it ends where the stream does. What is left behind the last is fed whole, until nothing is left. After a refusal all
    /// that is left is fed once more, so that what is used then is seen.
    pub fn by(
        stream: &[u8],
        lengths: &[usize],
        record: &mut [u8],
        mut feed: impl FnMut(&[u8], &mut [u8]) -> Fed,
    ) -> Yielded {
        let mut yielded = Yielded::default();
        let mut lengths = lengths.iter();
        loop {
            let rest = &stream[yielded.used..];
            let run = match lengths.next() {
                Some(length) => &rest[..rest.len().min(*length)],
                None if rest.is_empty() => return yielded,
                None => rest,
            };
            let fed = feed(run, record);
            yielded.used += used(&fed, run);
            match fed {
                Fed::More { .. } => {},
                Fed::Complete { length, .. } => yielded.records.push((record[..length].to_vec(), yielded.used)),
                Fed::Refused { number, .. } => {
                    yielded.refused = Some((number, yielded.used));
                    let rest = &stream[yielded.used..];
                    yielded.used += used(&feed(rest, record), rest);
                    return yielded;
                },
            }
        }
    }
}

/// What a feed used of its run. Without these two, feeding would never end.
fn used(fed: &Fed, run: &[u8]) -> usize {
    let used = match *fed {
        Fed::More { used } | Fed::Complete { used, .. } | Fed::Refused { used, .. } => used,
    };
    assert!(used <= run.len(), "no feed uses more than its run has");
    assert!(used > 0 || run.is_empty() || matches!(fed, Fed::Refused { .. }), "a feed uses something, or it is refused");
    used
}

#[cfg(test)]
mod tests {
    use super::Yielded;
    use crate::answers::{Fed, State};
    use crate::model::Model;

    /// A record in two fragments with an empty one between them, an empty record, and a record that is too long for three
    /// bytes, with a byte behind its header.
    const STREAM: [u8; 24] = [0, 0, 0, 1, 0xA1, 0, 0, 0, 0, 0x80, 0, 0, 2, 0xA2, 0xA3, 0x80, 0, 0, 0, 0x80, 0, 0, 4, 0xB1];

    /// What a stream yields in these runs, and the state and the buffer then; `between` may change the state after a feed of
    /// a run.
    fn fed(
        stream: &[u8],
        capacity: usize,
        lengths: &[usize],
        mut between: impl FnMut(&mut State, &[u8], &mut Fed),
    ) -> (Yielded, State, Vec<u8>) {
        let (mut state, mut buffer) = (State::fresh(capacity as u64), vec![0xEE; capacity]);
        let yielded = Yielded::by(stream, lengths, &mut buffer, |run, record| {
            let mut fed = Model::FAULTLESS.feed(&mut state, run, record);
            between(&mut state, run, &mut fed);
            fed
        });
        (yielded, state, buffer)
    }

    /// The lengths of each cutting of so many bytes into runs that are not empty.
    fn all_cuttings(count: usize) -> impl Iterator<Item = Vec<usize>> {
        (0..1_u32 << (count - 1)).map(move |cuts| {
            let ends = (1..count).filter(|place| cuts >> (place - 1) & 1 == 1).chain([count]);
            let mut start = 0;
            ends.map(|end| end - std::mem::replace(&mut start, end)).collect()
        })
    }

    #[test]
    fn what_is_yielded() {
        let (yielded, state, buffer) = fed(&STREAM, 3, &[], |_, _, _| {});
        let due = Yielded { records: vec![(vec![0xA1, 0xA2, 0xA3], 15), (vec![], 19)], refused: Some((7, 23)), used: 23 };
        assert_eq!(yielded, due);
        assert_eq!(state, State { stopped: true, ..State::fresh(3) });
        assert_eq!(buffer, [0xA1, 0xA2, 0xA3]);
    }

    #[test]
    fn every_cutting_yields_the_same() {
        // From the second fragment on: 2^14 cuttings, with room, and with a byte too little.
        for capacity in [2, 1] {
            let stream = &STREAM[5..20];
            let whole = fed(stream, capacity, &[], |_, _, _| {});
            for lengths in all_cuttings(stream.len()) {
                assert_eq!(fed(stream, capacity, &lengths, |_, _, _| {}), whole, "{lengths:?}");
            }
        }
        let whole = fed(&STREAM, 3, &[], |_, _, _| {});
        for lengths in [&[1; 24][..], &[0, 2, 0, 0, 9, 1, 0], &[usize::MAX; 3], &[23, 1], &[24, 0, 0], &[3; 20]] {
            assert_eq!(fed(&STREAM, 3, lengths, |_, _, _| {}), whole, "{lengths:?}");
        }
    }

    #[test]
    fn what_depends_on_the_cutting_is_seen() {
        let forgets_header = |state: &mut State, _: &[u8], _: &mut Fed| (state.count, state.value) = (0, 0);
        let forgets_left = |state: &mut State, _: &[u8], _: &mut Fed| (state.left, state.last) = (0, false);
        let begins_anew = |state: &mut State, run: &[u8], _: &mut Fed| {
            if run.is_empty() {
                *state = State::fresh(state.capacity);
            }
        };
        let whole = fed(&STREAM, 3, &[], |_, _, _| {});
        assert_ne!(fed(&STREAM, 3, &[2], forgets_header), whole);
        assert_ne!(fed(&STREAM, 3, &[14], forgets_left), whole);
        assert_ne!(fed(&STREAM, 3, &[7, 0], begins_anew), whole);
        let (yielded, ..) = fed(&STREAM, 3, &[], |state, run, fed| {
            if state.stopped && run.len() == 1 {
                *fed = Fed::Refused { number: 7, used: 1 };
            }
        });
        assert_eq!((yielded.refused, yielded.used), (Some((7, 23)), 24), "a byte that is used after a stop");
    }
}
