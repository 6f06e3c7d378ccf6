//! What the count of refusal 1 promises: exactly so many more bytes finish the item, or its length word where that was
//! cut, and fewer never do. No model is needed to see that: all cuts of one message tell.
use crate::answers::LAST_REFUSAL;

/// What a reader told of one cut: its answer and its first two figures.
#[derive(Clone, Copy, Debug, Default, PartialEq, Eq)]
pub struct Said {
    pub answer: u32,
    pub place: u64,
    pub wanting: u64,
}

/// The length of the first cut that breaks the promise, and what is wrong. `said` has what was said of each cut of a whole
/// message, from no byte to all of them; the message begins at a place.
pub fn broken(at: usize, said: &[Said]) -> Option<(usize, String)> {
    (0..said.len()).find_map(|length| wrong(at, said, length).map(|what| (length, what)))
}

fn wrong(at: usize, said: &[Said], length: usize) -> Option<String> {
    let whole = said.len() - 1;
    let Said { answer, place, wanting } = said[length];
    if length == whole {
        return (1..=LAST_REFUSAL).contains(&answer).then(|| format!("a whole message gets {answer}"));
    }
    let end = |length: usize| (at + length) as u64;
    if answer != 1 || !(at as u64..=end(length)).contains(&place) {
        return Some(format!("gets {answer} at {place}, and not 1 at an item before its end"));
    }
    if wanting == 0 || wanting > (whole - length) as u64 {
        return Some(format!("wants {wanting}, and {} are left", whole - length));
    }
    let enough = length + wanting as usize;
    let before = said[enough - 1];
    if wanting > 1 && before != (Said { wanting: 1, ..said[length] }) {
        return Some(format!("wants {wanting}; one byte before these there is {before:?}"));
    }
    let after = said[enough];
    // The item is finished: the message is, or the next item begins there. Or a length word was cut and is whole now.
    let is_finished = after.answer != 1 || after.place == end(enough);
    let has_its_length = after.place == place && end(enough) == place + 4;
    (!is_finished && !has_its_length).then(|| format!("wants {wanting}; with these there is {after:?}"))
}

#[cfg(test)]
mod tests {
    use super::{broken, Said};

    /// What is said of the cuts of an item at a place, by what is wanting in each.
    fn item(at: usize, wanting: &[u64]) -> Vec<Said> {
        wanting.iter().map(|wanting| Said { answer: 1, place: at as u64, wanting: *wanting }).collect()
    }

    fn with_end(mut said: Vec<Said>) -> Vec<Said> {
        said.push(Said { answer: 0, place: 0, wanting: 1 });
        said
    }

    /// An opaque of one byte, whose length word, content and pad are all told.
    const OPAQUE: [u64; 8] = [4, 3, 2, 1, 4, 3, 2, 1];

    #[test]
    fn promises_kept() {
        for wanting in [&[4, 3, 2, 1][..], &[8, 7, 6, 5, 4, 3, 2, 1], &OPAQUE] {
            assert_eq!(broken(0, &with_end(item(0, wanting))), None, "{wanting:?}");
            let behind = [item(3, &[4, 3, 2, 1]), item(7, wanting)].concat();
            assert_eq!(broken(3, &with_end(behind)), None, "a word and {wanting:?}");
        }
    }

    #[test]
    fn promises_broken() {
        for (what, wanting, length) in [
            ("without the pad", &[4, 3, 2, 1, 1, 3, 2, 1][..], 4),
            ("the length word's rest for the content's", &[4, 3, 2, 1, 0, 0, 0, 0], 4),
            ("the length word counted as content", &[4, 3, 2, 1, 8, 7, 6, 5], 4),
            ("the content where the length word was cut", &[8, 7, 6, 5, 4, 3, 2, 1, 4, 3, 2, 1], 0),
            ("one too few", &[3, 2, 1, 0], 0),
            ("one too many", &[5, 4, 3, 2], 0),
            ("nothing", &[0, 0, 0, 0], 0),
        ] {
            assert_eq!(broken(0, &with_end(item(0, wanting))).map(|(length, _)| length), Some(length), "{what}");
        }
        let mut elsewhere = with_end(item(0, &OPAQUE));
        elsewhere[6].place = 4;
        assert_eq!(broken(0, &elsewhere).map(|(length, _)| length), Some(6), "the place of the content");
        let mut taken = with_end(item(0, &OPAQUE));
        taken[5].answer = 0;
        assert_eq!(broken(0, &taken).map(|(length, _)| length), Some(5), "a message that is not whole");
        let refused = item(0, &[4, 3, 2, 1, 4]);
        assert_eq!(broken(0, &refused).map(|(length, _)| length), Some(4), "a whole message that is refused");
    }
}
