//! What the readers and writers of single values must answer. The crate holds the fields of what it took, and makes the
//! bytes of what is written; the places of pieces are the model's, where the message has the crate's bytes there. All of
//! the current reading is the model's.
use nfsserve::Field;

use super::{placed, put, too_large, Truth, NO_PLACE};
use crate::answers::{AuthUnix, Choice, Refusal, Unwritten, Wrote, BOUND, WIDE_NUMBER};
use crate::model::Model;
use crate::shapes::{kind, Reading};
use crate::values::{Value, Writer};

impl Truth {
    /// All figures of the reader of a value at a place.
    pub fn value(&mut self, value: Value, message: &[u8], at: usize) -> Result<Vec<u64>, Refusal> {
        let took = self.read(kind(value.kind()).expect("the kind is known"), message, at)?;
        let model = Model::FAULTLESS.value(value, message, at).answer.ok();
        let mut figures = vec![took.next as u64, u64::from(took.plain)];
        if value == Value::Message(Reading::Current) {
            figures.extend(&model.expect("the model took it")[2..]);
        } else {
            append(value, &message[at..], message, model.as_deref(), &mut figures);
        }
        Ok(figures)
    }

    /// All figures of the `auth_unix` in a credential's body. The crate is given the body alone, as `handle_rpc` has it.
    pub fn auth_unix_in(&mut self, message: &[u8], at: usize, count: usize) -> Result<Vec<u64>, Refusal> {
        let model = Model::FAULTLESS.auth_unix_in(message, at, count);
        if message.len() > BOUND {
            return Err(Refusal::plain(3));
        }
        let Some(body) = at.checked_add(count).and_then(|end| message.get(at..end)) else {
            // A body that does not lie in the message is as an empty one, at the start: its first word is wanting.
            return Err(Refusal::ended(0, 4));
        };
        if too_large(model.claim, message) {
            self.judged.unasked += 1;
            return Err(placed(nfsserve::Reading::Short, model.answer.err()));
        }
        let kind = kind(Value::AuthUnix.kind()).expect("the kind is known");
        let number = self.in_crate[kind].expect("the crate has it");
        self.judged.by_crate += 1;
        match nfsserve::read(number, body, &mut self.rewriting) {
            nfsserve::Reading::Took(used) => {
                let plain = body[..used] == self.rewriting;
                let mut figures = vec![(at + used) as u64, u64::from(plain)];
                append(Value::AuthUnix, body, message, model.answer.ok().as_deref(), &mut figures);
                Ok(figures)
            },
            refused => Err(placed(refused, model.answer.err())),
        }
    }

    /// The answer of a writer, and what it leaves in `out`. `fields` are enough. 253 where the crate's types, or those of the
    /// current reading, cannot hold them.
    pub fn write(&mut self, writer: Writer, sources: [&[u8]; 2], fields: &[u64], out: &mut [u8], start: usize) -> Wrote {
        let refused = |number| Err(Unwritten::plain(number));
        if writer == Writer::Reply(Reading::Current) {
            return match Model::FAULTLESS.written(writer, sources, fields) {
                Err(WIDE_NUMBER) => refused(WIDE_NUMBER),
                _ if start > out.len() => refused(9),
                Err(number) => refused(number),
                Ok(bytes) => put(&bytes, out, start),
            };
        }
        let (held, all_inside) = held(writer, sources, fields);
        let Some(bytes) = nfsserve::written(writer.name(), &held) else { return refused(WIDE_NUMBER) };
        if start > out.len() {
            return refused(9);
        }
        if sources[..writer.sources()].iter().any(|source| source.len() > BOUND) {
            return refused(3);
        }
        if !all_inside {
            return refused(4);
        }
        if bytes.len() > BOUND {
            return refused(3);
        }
        put(&bytes, out, start)
    }
}

/// The `auth_unix` that the crate handed over, by the bytes that it writes for it.
pub(super) fn auth_unix(bytes: &[u8], message: &[u8], model: &Choice) -> AuthUnix {
    let model = match model {
        Choice::HandOver { auth_unix: Some(found), .. } => Some([&[0, 0][..], &found.figures()].concat()),
        _ => None,
    };
    let mut figures = vec![0, 0];
    append(Value::AuthUnix, bytes, message, model.as_deref(), &mut figures);
    AuthUnix::of(&figures[2..])
}

/// The fields of a writer as the crate has them, bytes or words for pieces; and whether all pieces were inside. One that
/// is not is empty.
fn held(writer: Writer, sources: [&[u8]; 2], fields: &[u64]) -> (Vec<Field>, bool) {
    let (mut held, mut all_inside, mut at) = (Vec::new(), true, 0);
    // Only an accepted reply has a verifier; where there is none, these two fields are numbers as all others.
    let has_pieces = !matches!(writer, Writer::Reply(_)) || fields[1] == 1;
    while at < writer.fields() {
        let Some(piece) = writer.pieces().iter().find(|piece| piece.at == at && has_pieces) else {
            held.push(Field::Number(fields[at]));
            at += 1;
            continue;
        };
        let (place, count) = (fields[at] as usize, fields[at + 1] as usize);
        let end = count.checked_mul(piece.width).and_then(|length| place.checked_add(length));
        let content = end.and_then(|end| sources[piece.source].get(place..end));
        all_inside &= content.is_some();
        let content = content.unwrap_or(&[]);
        held.push(if piece.width == 1 { Field::Bytes(content.to_vec()) } else { Field::Words(words(content)) });
        at += 2;
    }
    (held, all_inside)
}

/// The words that bytes are.
fn words(bytes: &[u8]) -> Vec<u32> {
    bytes.chunks_exact(4).map(|word| u32::from_be_bytes([word[0], word[1], word[2], word[3]])).collect()
}

/// Appends the figures of what the crate holds for the value that begins `source`. `figures` has the first two already;
/// `model` has all, for the places of pieces in the message.
fn append(value: Value, source: &[u8], message: &[u8], model: Option<&[u64]>, figures: &mut Vec<u64>) {
    let fields = nfsserve::held(value.kind(), source).expect("the crate took it");
    for field in fields {
        let (bytes, count) = match field {
            Field::Number(number) => {
                figures.push(number);
                continue;
            },
            Field::Bytes(bytes) => {
                let count = bytes.len();
                (bytes, count)
            },
            Field::Words(words) => (words.iter().flat_map(|word| word.to_be_bytes()).collect(), words.len()),
        };
        let place = model.map_or(NO_PLACE as u64, |model| model[figures.len()]);
        let stands = message.get(place as usize..).is_some_and(|rest| rest.starts_with(&bytes));
        figures.extend([if stands { place } else { NO_PLACE as u64 }, count as u64]);
    }
    assert_eq!(figures.len(), value.figures(), "the crate's fields are the figures");
}
