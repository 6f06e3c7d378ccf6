//! A model of the rules of docs/SCOPE.md, written from the rules. It calls nothing of the crate and nothing of the proved library.
//!
//! It has three uses: it fills in what the crate cannot tell (places of refusals and pieces, what is wanting, states that
//! don't fit); it tells beforehand how much the crate would allocate for a message; and, with the feature `model`, it
//! stands on the proved side, where faults can be planted to show that the oracle finds them.

mod choice;
#[cfg(feature = "model")]
mod exports;
mod fault;
mod mounting;
mod reading;
mod stream;
mod values;

pub use fault::Fault;

use crate::answers::{Unwritten, Wrote};

/// The model, with its planted fault if it has one.
#[derive(Clone, Copy)]
pub struct Model {
    fault: Option<Fault>,
}

impl Model {
    pub const FAULTLESS: Model = Model { fault: None };

    #[cfg(feature = "model")]
    pub fn with(fault: Option<Fault>) -> Model {
        Model { fault }
    }

    fn has(self, fault: Fault) -> bool {
        self.fault == Some(fault)
    }

    /// Bytes put into a buffer from a place inside it on, if they fit.
    fn put(self, bytes: &[u8], out: &mut [u8], start: usize) -> Wrote {
        let room = &mut out[start..];
        if room.len() < bytes.len() {
            if self.has(Fault::WrittenInPart) {
                room.copy_from_slice(&bytes[..room.len()]);
            }
            return Err(Unwritten::no_room(bytes.len()));
        }
        room[..bytes.len()].copy_from_slice(bytes);
        if self.has(Fault::ByteBeyond) {
            if let Some(beyond) = room.get_mut(bytes.len()) {
                *beyond = 0;
            }
        }
        Ok(start + bytes.len())
    }
}

/// The word at a place where four bytes are known to stand. (Only a planted fault asks elsewhere: 0.)
fn word_at(source: &[u8], at: usize) -> u32 {
    source.get(at..).and_then(|rest| rest.first_chunk()).map_or(0, |word| u32::from_be_bytes(*word))
}
