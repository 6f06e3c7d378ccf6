//! The choice of program.
use super::{word_at, Fault, Model};
use crate::answers::{AuthUnix, Choice, Refusal, BOUND};
use crate::shapes::Reading;

/// The tags of rpc_body that are declared.
const CALL: u32 = 0;
const REPLY_TAG: u32 = 1;

/// Where the words of a call stand.
const RPCVERS: usize = 8;
const PROGRAM: usize = 12;
const VERSION: usize = 16;
const PROCEDURE: usize = 20;
const FLAVOR: usize = 24;
const BODY: usize = 32;

const HANDED_OVER: [u32; 3] = [100_003, 100_000, 100_005];

/// What follows the xid in prog_unavail_reply_message.
const PROGRAM_UNAVAILABLE: [u32; 5] = [1, 0, 0, 0, 1];

/// A choice, and the largest length or count that the message and its credential claimed on the way to it.
pub struct Chosen {
    pub choice: Choice,
    pub claim: u32,
}

impl Model {
    /// Chooses for a message that is read in that reading. A reply is written to the start of `out`; nothing else in it is
    /// touched.
    pub fn choose(self, reading: Reading, message: &[u8], seen: bool, out: &mut [u8]) -> Chosen {
        let mut chooser = Chooser { model: self, reading, message, seen, out, claim: 0 };
        let answer = chooser.choose();
        Chosen { choice: answer.unwrap_or_else(Choice::Refused), claim: chooser.claim }
    }
}

struct Chooser<'a> {
    model: Model,
    reading: Reading,
    message: &'a [u8],
    seen: bool,
    out: &'a mut [u8],
    claim: u32,
}

impl Chooser<'_> {
    fn choose(&mut self) -> Result<Choice, Refusal> {
        if self.message.len() > BOUND {
            return Err(Refusal::plain(3));
        }
        let reading = if self.model.has(Fault::ChosenByCrate) { Reading::Crate } else { self.reading };
        let read = self.model.read_shape(reading.rpc_msg(), self.message, 0, &mut Vec::new());
        self.claim = read.claim;
        let arguments = read.answer?.next;
        match self.word(4) {
            CALL => self.call(arguments),
            REPLY_TAG if !self.model.has(Fault::ReplyTaken) => Err(Refusal::plain(8)),
            // A call of zeros: no credential to read, and its rpcvers is not 2.
            _ => self.version_mismatch(),
        }
    }

    fn call(&mut self, arguments: usize) -> Result<Choice, Refusal> {
        let version_fits = self.word(RPCVERS) == 2;
        if !version_fits && self.model.has(Fault::CredentialAfterVersion) {
            return self.version_mismatch();
        }
        let auth_unix = self.credential()?;
        if self.seen && self.model.has(Fault::SeenBeforeVersion) {
            return Ok(Choice::Silence);
        }
        if !version_fits {
            return self.version_mismatch();
        }
        if self.seen {
            return Ok(Choice::Silence);
        }
        let program = self.word(PROGRAM);
        if !HANDED_OVER.contains(&program) {
            return self.reply(PROGRAM_UNAVAILABLE);
        }
        let (version, procedure) = (self.word(VERSION), self.word(PROCEDURE));
        Ok(Choice::HandOver { program, version, procedure, arguments, auth_unix })
    }

    /// The `auth_unix` in the credential's body, if the credential is AUTH_UNIX. The body's end is the end.
    fn credential(&mut self) -> Result<Option<AuthUnix>, Refusal> {
        if self.word(FLAVOR) != 1 {
            return Ok(None);
        }
        let mut end = BODY + self.word(BODY - 4) as usize;
        if self.model.has(Fault::CredentialToTheEnd) || end > self.message.len() {
            end = self.message.len();
        }
        let read = self.model.auth_unix_in(self.message, BODY, end - BODY);
        self.claim = self.claim.max(read.claim);
        Ok(Some(AuthUnix::of(&read.answer?[2..])))
    }

    /// The reply rpc_vers_mismatch.
    fn version_mismatch(&mut self) -> Result<Choice, Refusal> {
        let version = match self.reading {
            Reading::Crate if self.model.has(Fault::CrateNamesTwo) => 2,
            Reading::Current if self.model.has(Fault::CurrentNamesZero) => 0,
            reading => reading.version(),
        };
        self.reply([1, 1, 0, version, version])
    }

    fn reply(&mut self, words: [u32; 5]) -> Result<Choice, Refusal> {
        let mut bytes = self.message[..4].to_vec();
        bytes.extend(words.iter().flat_map(|word| word.to_be_bytes()));
        self.model.put(&bytes, self.out, 0).map_err(|unwritten| Refusal::plain(unwritten.number))?;
        Ok(Choice::Reply)
    }

    fn word(&self, at: usize) -> u32 {
        word_at(self.message, at)
    }
}
