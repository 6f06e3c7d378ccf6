//! What the answers about the mount protocol and the port mapper must be. The crate has none of these kinds in its list, but
//! it has every item of them: it is asked item by item, in the order that RFC 1813, appendix I, and RFC 1057 have them. Its
//! own handlers answer for the port mapper, and for the mount protocol as far as they go by the same rules.
use nfsserve::{Handled, Handler, Reply};

use super::{placed, put, too_large, Truth};
use crate::answers::{Asked, Call, Choice, Piece, Refusal, Took, Unwritten, Wrote, BOUND, LONG_PATH};
use crate::model::Model;
use crate::shapes::{kind, Reading, KINDS, MNTPATHLEN};
use crate::values::Walk;

/// The programs that are answered for here.
const PORT_MAPPER: u32 = 100_000;
const MOUNT: u32 = 100_005;

/// No path begins so, and nothing is ever mounted.
const NO_EXPORT: &str = "\0";

/// The items of a message, read by the crate one after another.
struct Items<'a> {
    source: &'a [u8],
    at: usize,
    /// What the crate writes for those that were read.
    written: Vec<u8>,
    /// What it writes for the last one.
    last: Vec<u8>,
    /// The place of the length word of the first path over the bound.
    long: Option<usize>,
}

/// The crate refuses an item.
type Item<T> = Result<T, nfsserve::Reading>;

impl<'a> Items<'a> {
    fn new(source: &'a [u8], at: usize) -> Items<'a> {
        Items { source, at, written: Vec::new(), last: Vec::new(), long: None }
    }

    /// One item of that name.
    fn item(&mut self, name: &str) -> Item<()> {
        let rest = &self.source[self.at..];
        let reading = nfsserve::read_beside(name, rest, &mut self.last).unwrap_or_else(|| {
            let number = nfsserve::KINDS.iter().position(|known| *known == name).expect("the crate has the item");
            nfsserve::read(number, rest, &mut self.last)
        });
        let nfsserve::Reading::Took(used) = reading else { return Err(reading) };
        self.written.extend_from_slice(&self.last);
        self.at += used;
        Ok(())
    }

    /// The first word that the crate writes for the last item.
    fn first_word(&self) -> u32 {
        self.last.first_chunk().map_or(0, |word| u32::from_be_bytes(*word))
    }

    fn flag(&mut self) -> Item<bool> {
        self.item("bool")?;
        Ok(self.first_word() == 1)
    }

    /// Its content.
    fn opaque(&mut self) -> Item<Piece> {
        let place = self.at + 4;
        self.item("opaque")?;
        Ok(Piece { place, count: self.first_word() as usize })
    }

    fn path(&mut self) -> Item<Piece> {
        let place = self.at;
        let path = self.opaque()?;
        if path.count > MNTPATHLEN && self.long.is_none() {
            self.long = Some(place);
        }
        Ok(path)
    }

    /// The names of an entry: the place of their first flag, and how many they are.
    fn groups(&mut self) -> Item<Piece> {
        let (place, mut count) = (self.at, 0);
        while self.flag()? {
            self.opaque()?;
            count += 1;
        }
        Ok(Piece { place, count })
    }

    /// How many entries an export list has.
    fn exports(&mut self) -> Item<usize> {
        let mut count = 0;
        while self.flag()? {
            self.path()?;
            self.groups()?;
            count += 1;
        }
        Ok(count)
    }

    fn kind(&mut self, name: &str) -> Item<()> {
        match name {
            "dirpath" => self.path().map(|_| ()),
            "exports" => self.exports().map(|_| ()),
            "mountres3" => {
                self.item("mountstat3")?;
                if self.first_word() == 0 {
                    self.item("opaque")?;
                    self.item("words")?;
                }
                Ok(())
            },
            _ => self.item(name),
        }
    }

    /// The figures that a reader of an export list has besides the next place and whether it is plain.
    fn walk(&mut self, walk: Walk) -> Item<Vec<u64>> {
        let first = self.at;
        let numbers = match walk {
            Walk::Exports => vec![first, self.exports()?],
            Walk::Export | Walk::Group if !self.flag()? => vec![],
            Walk::Export => {
                let (path, groups) = (self.path()?, self.groups()?);
                vec![1, path.place, path.count, groups.place, groups.count]
            },
            Walk::Group => {
                let name = self.opaque()?;
                vec![1, name.place, name.count]
            },
        };
        Ok(numbers.into_iter().map(|number| number as u64).collect())
    }
}

impl Truth {
    /// The answer to reading one of these kinds at a place of a source that is not too long; `rewriting` then holds the
    /// rewriting. The model has the places of refusals 1 and 2, and what is wanting.
    pub(super) fn read_by_items(
        &mut self,
        kind: usize,
        source: &[u8],
        at: usize,
        model: Result<Took, Refusal>,
    ) -> Result<Took, Refusal> {
        let mut items = Items::new(source, at);
        self.judged.by_items += 1;
        items.kind(KINDS[kind].0).map_err(|refused| placed(refused, model.err()))?;
        if let Some(place) = items.long {
            return Err(Refusal::long_path(place));
        }
        self.rewriting = items.written;
        Ok(self.took(source, at, items.at))
    }

    /// The answer to a message for all programs, and what it leaves in `out`.
    pub fn ask(&mut self, message: &[u8], seen: bool, out: &mut [u8]) -> Asked {
        let choice = self.choose(Reading::Crate, message, seen, out);
        let Choice::HandOver { program, version, procedure, arguments, auth_unix } = choice else { return choice.into() };
        let xid = message.first_chunk().map_or(0, |word| u32::from_be_bytes(*word));
        let call = [xid, version, procedure];
        let rest = &message[arguments..];
        let handed_on = |call: Call, next: usize| Asked::Call { call, next, auth_unix };
        match (program, version, procedure) {
            (PORT_MAPPER, ..) => match self.wire.handled(Handler::Portmap, call, rest, NO_EXPORT) {
                // It has read a mapping, and answers with a port.
                Handled::Wrote(_, left) if (version, procedure) == (nfsserve::PORT_MAPPER_VERSION, 3) => {
                    handed_on(Call::Getport(mapping(rest)), message.len() - left)
                },
                Handled::Wrote(reply, left) => {
                    assert_eq!(left, rest.len(), "where there is a reply, no arguments are read");
                    replied(&reply, out)
                },
                Handled::Refused(refused) => {
                    let model = Model::FAULTLESS.ask(message, seen, &mut []);
                    let refusal = if let Asked::Refused(refusal) = model { Some(refusal) } else { None };
                    Asked::Refused(placed(refused, refusal))
                },
            },
            // The crate does not look at the version here.
            (MOUNT, version, _) if version != nfsserve::MOUNT_VERSION => {
                replied(&nfsserve::reply(Reply::AnotherVersion(nfsserve::MOUNT_VERSION), xid), out)
            },
            (MOUNT, _, 1 | 3) => {
                let path = self.read(kind("dirpath").expect("the kind is known"), message, arguments);
                match path {
                    Err(refusal) => Asked::Refused(refusal),
                    Ok(took) => {
                        // The crate wrote its length first.
                        let length = self.rewriting.first_chunk().map_or(0, |word| u32::from_be_bytes(*word));
                        let path = Piece { place: arguments + 4, count: length as usize };
                        handed_on(if procedure == 1 { Call::Mnt(path) } else { Call::Umnt(path) }, took.next)
                    },
                }
            },
            // The crate answers UMNTALL.
            (MOUNT, _, 4) => replied(&nfsserve::reply(Reply::ProcedureUnavailable, xid), out),
            (MOUNT, _, 5) => handed_on(Call::Export, arguments),
            (MOUNT, ..) => match self.wire.handled(Handler::Mount, call, rest, NO_EXPORT) {
                Handled::Wrote(reply, _) => replied(&reply, out),
                Handled::Refused(refused) => panic!("nothing is read for procedure {procedure}, and there is {refused:?}"),
            },
            _ => choice.into(),
        }
    }

    /// All figures of what reads an export list, its next entry, or the next name of an entry.
    pub fn walk(&mut self, walk: Walk, message: &[u8], at: usize) -> Result<Vec<u64>, Refusal> {
        let model = Model::FAULTLESS.walk(walk, message, at).err();
        if let Some(refusal @ Refusal { number: 3 | 9, .. }) = model {
            return Err(refusal);
        }
        // Claims are those of a whole list: what is read here begins it.
        let exports = kind("exports").expect("the kind is known");
        if too_large(Model::FAULTLESS.read(exports, message, at, &mut Vec::new()).claim, message) {
            self.judged.unasked += 1;
            return Model::FAULTLESS.walk(walk, message, at);
        }
        self.judged.by_items += 1;
        let mut items = Items::new(message, at);
        let numbers = items.walk(walk).map_err(|refused| placed(refused, model))?;
        if let Some(place) = items.long {
            return Err(Refusal::long_path(place));
        }
        let plain = message[at..items.at] == items.written;
        let mut figures = [&[items.at as u64, u64::from(plain)], &numbers[..]].concat();
        figures.resize(walk.figures(), 0);
        Ok(figures)
    }

    /// The answer of the writer of a path, and what it leaves in `out`.
    pub fn write_path(&mut self, source: &[u8], path: Piece, out: &mut [u8], start: usize) -> Wrote {
        let refused = |number| Err(Unwritten::plain(number));
        if start > out.len() {
            return refused(9);
        }
        if source.len() > BOUND {
            return refused(3);
        }
        let Some(content) = path.place.checked_add(path.count).and_then(|end| source.get(path.place..end)) else {
            return refused(4);
        };
        if content.len() > MNTPATHLEN {
            return refused(LONG_PATH);
        }
        // The crate writes the message that these bytes are.
        let mut message = (content.len() as u32).to_be_bytes().to_vec();
        message.extend_from_slice(content);
        message.resize(message.len().next_multiple_of(4), 0);
        let mut items = Items::new(&message, 0);
        items.opaque().expect("the crate takes it");
        put(&items.written, out, start)
    }

    /// The answer of the writer of an export list, and what it leaves in `out`.
    pub fn write_list(&mut self, source: &[u8], list: Piece, out: &mut [u8], start: usize) -> Wrote {
        let refused = |number| Err(Unwritten::plain(number));
        if start > out.len() {
            return refused(9);
        }
        if source.len() > BOUND {
            return refused(3);
        }
        let Some(items) = self.held(source, list) else { return refused(4) };
        if items.long.is_some() {
            return refused(LONG_PATH);
        }
        put(&items.written, out, start)
    }

    /// Whether two export lists are the same: the crate then writes the same for both, and the model finds the same paths and
    /// names. Or 3, 4 and 10, in this order.
    pub fn same(&mut self, sources: [&[u8]; 2], lists: [Piece; 2]) -> Result<bool, u32> {
        let same = self.same_written(sources, lists);
        assert_eq!(
            same,
            Model::FAULTLESS.same(sources, lists),
            "what is written for two lists tells whether they are the same"
        );
        same
    }

    fn same_written(&mut self, sources: [&[u8]; 2], lists: [Piece; 2]) -> Result<bool, u32> {
        if sources.iter().any(|source| source.len() > BOUND) {
            return Err(3);
        }
        let (Some(first), Some(second)) = (self.held(sources[0], lists[0]), self.held(sources[1], lists[1])) else {
            return Err(4);
        };
        if first.long.is_some() || second.long.is_some() {
            return Err(LONG_PATH);
        }
        Ok(first.written == second.written)
    }

    /// The items of a list that reads with its count at its place.
    fn held<'a>(&mut self, source: &'a [u8], list: Piece) -> Option<Items<'a>> {
        let exports = kind("exports").expect("the kind is known");
        if list.place > source.len() {
            return None;
        }
        if too_large(Model::FAULTLESS.read(exports, source, list.place, &mut Vec::new()).claim, source) {
            self.judged.unasked += 1;
            return None;
        }
        self.judged.by_items += 1;
        let mut items = Items::new(source, list.place);
        let count = items.exports().ok()?;
        (count == list.count).then_some(items)
    }
}

/// The four words that the crate writes for the mapping that arguments begin with.
fn mapping(arguments: &[u8]) -> [u32; 4] {
    let mut items = Items::new(arguments, 0);
    items.item("mapping").expect("the crate took it");
    let word = |at: usize| u32::from_be_bytes([at, at + 1, at + 2, at + 3].map(|at| items.written[at]));
    [0, 4, 8, 12].map(word)
}

/// A reply of the crate, put to the start of a buffer if there is room for it.
fn replied(reply: &[u8], out: &mut [u8]) -> Asked {
    put(reply, out, 0).map_or_else(|unwritten| Asked::Refused(Refusal::plain(unwritten.number)), Asked::Reply)
}

#[cfg(test)]
mod tests {
    use nfsserve::{Handled, Handler, Reply};

    use super::{Truth, NO_EXPORT};
    use crate::cases::bare_call;
    use crate::lent::EMPTY;
    use crate::model::Model;
    use crate::shapes::kind;
    use crate::values::Walk;

    /// What the crate's own handler of the mount protocol answers: a success, and these results.
    fn results(truth: &Truth, procedure: u32, arguments: &[u8], export: &str) -> Vec<u8> {
        let Handled::Wrote(reply, _) = truth.wire.handled(Handler::Mount, [42, 3, procedure], arguments, export) else {
            panic!("the crate answers procedure {procedure}")
        };
        let success = nfsserve::reply(Reply::Success, 42);
        assert!(reply.starts_with(&success), "the crate answers with success");
        reply[success.len()..].to_vec()
    }

    #[test]
    fn results_of_the_crate() {
        let mut truth = Truth::new();
        for name in ["", "/", "/vault", "/vault/reels"] {
            let list = results(&truth, 5, &[], name);
            let took = truth.read(kind("exports").expect("the kind is known"), &list, 0).expect("it is taken");
            assert_eq!((took.next, took.plain), (list.len(), true), "{name}");
            assert_eq!(truth.walk(Walk::Exports, &list, 0), Ok(vec![list.len() as u64, 1, 0, 1]), "{name}");
            // A path behind a flag and its length; no names; and then the list's end.
            let end = list.len() as u64 - 4;
            let entry = Ok(vec![end, 1, 1, 8, name.len() as u64, end - 4, 0]);
            assert_eq!(truth.walk(Walk::Export, &list, 0), entry, "{name}");
            assert_eq!(list[8..8 + name.len()], *name.as_bytes());
            assert_eq!(truth.walk(Walk::Group, &list, end as usize - 4), Ok(vec![end, 1, 0, 0, 0]), "{name}");
            let the_end = Ok(vec![end + 4, 1, 0, 0, 0, 0, 0]);
            assert_eq!(truth.walk(Walk::Export, &list, end as usize), the_end, "{name}");
        }
        let failed = results(&truth, 1, &[0, 0, 0, 1, b'/', 0, 0, 0], NO_EXPORT);
        let took = truth.read(kind("mountres3").expect("the kind is known"), &failed, 0).expect("it is taken");
        assert_eq!((failed, took.next, took.plain), (vec![0, 0, 0, 2], 4, true), "no such directory");
    }

    #[test]
    fn every_procedure() {
        let mut truth = Truth::new();
        let arguments = [0, 0, 0, 2, b'/', b'a', 0, 0, 0, 0, 0, 6, 0, 0, 8, 1];
        for (program, version) in [100_000, 100_003, 100_005].into_iter().flat_map(|p| (0..6).map(move |v| (p, v))) {
            for procedure in (0..24).chain([1 << 31, u32::MAX]) {
                let call = bare_call(program, version, procedure, &arguments);
                for room in [0, 23, 24, 31, 32, 33] {
                    let (mut due, mut got) = (vec![EMPTY; room], vec![EMPTY; room]);
                    let asked = truth.ask(&call, false, &mut due);
                    assert_eq!(
                        Model::FAULTLESS.ask(&call, false, &mut got),
                        asked,
                        "{program} {version} {procedure} {room}"
                    );
                    assert_eq!(got, due, "{program} {version} {procedure} {room}");
                }
            }
        }
    }
}
