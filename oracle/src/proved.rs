//! The proved side: the functions of the library, or the model in their place. Both take slices for the addresses and
//! lengths of include/yugerzat.h, and give the answer; what they tell beside it is in what was lent.
pub use side::Proved;

#[cfg(not(feature = "model"))]
mod side {
    use crate::answers::Piece;
    use crate::shapes::Reading;
    use crate::values::{Value, Walk, Writer};

    // A lent slice passes as its address and its length. include/yugerzat.h declares the same.
    extern "C" {
        #[rustfmt::skip]
        fn yugerzat_rewrite(
            kind: u32,
            source: *const u8,
            length: usize,
            at: usize,
            out: *mut u8,
            room: usize,
            info: *mut u64,
            infos: usize,
        ) -> u32;
        fn yugerzat_judge(kind: u32, source: *const u8, length: usize, at: usize, info: *mut u64, infos: usize) -> u32;
        fn yugerzat_marks(kind: u32, source: *const u8, length: usize, at: usize, info: *mut u64, infos: usize) -> u32;
        fn yugerzat_read_rpc_msg(message: *const u8, length: usize, at: usize, info: *mut u64, infos: usize) -> u32;
        fn yugerzat_read_current_rpc_msg(message: *const u8, length: usize, at: usize, info: *mut u64, infos: usize) -> u32;
        #[rustfmt::skip]
        fn yugerzat_write_call(
            credential_source: *const u8,
            credential_length: usize,
            verifier_source: *const u8,
            verifier_length: usize,
            fields: *const u64,
            count: usize,
            out: *mut u8,
            room: usize,
            start: usize,
            info: *mut u64,
            infos: usize,
        ) -> u32;
        #[rustfmt::skip]
        fn yugerzat_write_reply(
            source: *const u8,
            length: usize,
            fields: *const u64,
            count: usize,
            out: *mut u8,
            room: usize,
            start: usize,
            info: *mut u64,
            infos: usize,
        ) -> u32;
        #[rustfmt::skip]
        fn yugerzat_write_current_reply(
            source: *const u8,
            length: usize,
            fields: *const u64,
            count: usize,
            out: *mut u8,
            room: usize,
            start: usize,
            info: *mut u64,
            infos: usize,
        ) -> u32;
        #[rustfmt::skip]
        fn yugerzat_read_auth_unix(
            message: *const u8,
            length: usize,
            at: usize,
            count: usize,
            info: *mut u64,
            infos: usize,
        ) -> u32;
        #[rustfmt::skip]
        fn yugerzat_write_auth_unix(
            name_source: *const u8,
            name_length: usize,
            gids_source: *const u8,
            gids_length: usize,
            fields: *const u64,
            count: usize,
            out: *mut u8,
            room: usize,
            start: usize,
            info: *mut u64,
            infos: usize,
        ) -> u32;
        fn yugerzat_read_fattr3(source: *const u8, length: usize, at: usize, info: *mut u64, infos: usize) -> u32;
        #[rustfmt::skip]
        fn yugerzat_write_fattr3(
            fields: *const u64,
            count: usize,
            out: *mut u8,
            room: usize,
            start: usize,
            info: *mut u64,
            infos: usize,
        ) -> u32;
        fn yugerzat_read_sattr3(source: *const u8, length: usize, at: usize, info: *mut u64, infos: usize) -> u32;
        #[rustfmt::skip]
        fn yugerzat_write_sattr3(
            fields: *const u64,
            count: usize,
            out: *mut u8,
            room: usize,
            start: usize,
            info: *mut u64,
            infos: usize,
        ) -> u32;
        fn yugerzat_read_diropargs3(source: *const u8, length: usize, at: usize, info: *mut u64, infos: usize) -> u32;
        #[rustfmt::skip]
        fn yugerzat_write_diropargs3(
            directory_source: *const u8,
            directory_length: usize,
            name_source: *const u8,
            name_length: usize,
            fields: *const u64,
            count: usize,
            out: *mut u8,
            room: usize,
            start: usize,
            info: *mut u64,
            infos: usize,
        ) -> u32;
        #[rustfmt::skip]
        fn yugerzat_part(message: *const u8, length: usize, at: usize, count: usize, info: *mut u64, infos: usize) -> u32;
        #[rustfmt::skip]
        fn yugerzat_feed(
            state: *mut u64,
            states: usize,
            run: *const u8,
            length: usize,
            record: *mut u8,
            room: usize,
            info: *mut u64,
            infos: usize,
        ) -> u32;
        #[rustfmt::skip]
        fn yugerzat_fragment(
            message: *const u8,
            length: usize,
            out: *mut u8,
            room: usize,
            start: usize,
            info: *mut u64,
            infos: usize,
        ) -> u32;
        #[rustfmt::skip]
        fn yugerzat_choose(
            message: *const u8,
            length: usize,
            seen: u32,
            out: *mut u8,
            room: usize,
            info: *mut u64,
            infos: usize,
        ) -> u32;
        #[rustfmt::skip]
        fn yugerzat_current_choose(
            message: *const u8,
            length: usize,
            seen: u32,
            out: *mut u8,
            room: usize,
            info: *mut u64,
            infos: usize,
        ) -> u32;
        #[rustfmt::skip]
        fn yugerzat_ask(
            message: *const u8,
            length: usize,
            seen: u32,
            out: *mut u8,
            room: usize,
            info: *mut u64,
            infos: usize,
        ) -> u32;
        fn yugerzat_read_exports(source: *const u8, length: usize, at: usize, info: *mut u64, infos: usize) -> u32;
        fn yugerzat_next_export(source: *const u8, length: usize, at: usize, info: *mut u64, infos: usize) -> u32;
        fn yugerzat_next_group(source: *const u8, length: usize, at: usize, info: *mut u64, infos: usize) -> u32;
        #[rustfmt::skip]
        fn yugerzat_write_dirpath(
            source: *const u8,
            length: usize,
            place: usize,
            count: usize,
            out: *mut u8,
            room: usize,
            start: usize,
            info: *mut u64,
            infos: usize,
        ) -> u32;
        #[rustfmt::skip]
        fn yugerzat_write_exports(
            source: *const u8,
            length: usize,
            place: usize,
            count: usize,
            out: *mut u8,
            room: usize,
            start: usize,
            info: *mut u64,
            infos: usize,
        ) -> u32;
        #[rustfmt::skip]
        fn yugerzat_same_exports(
            first: *const u8,
            first_length: usize,
            first_place: usize,
            first_count: usize,
            second: *const u8,
            second_length: usize,
            second_place: usize,
            second_count: usize,
            info: *mut u64,
            infos: usize,
        ) -> u32;
    }

    pub struct Proved;

    // Each address comes with the length of the slice it was taken from, and what is written overlaps nothing else: the
    // borrow checker sees to it. So every call below is sound.
    impl Proved {
        pub fn new() -> Proved {
            Proved
        }

        pub fn rewrite(&self, kind: u32, source: &[u8], at: usize, out: &mut [u8], info: &mut [u64]) -> u32 {
            let (length, room, infos) = (source.len(), out.len(), info.len());
            // SAFETY: as above.
            unsafe { yugerzat_rewrite(kind, source.as_ptr(), length, at, out.as_mut_ptr(), room, info.as_mut_ptr(), infos) }
        }

        pub fn judge(&self, kind: u32, source: &[u8], at: usize, info: &mut [u64]) -> u32 {
            // SAFETY: as above.
            unsafe { yugerzat_judge(kind, source.as_ptr(), source.len(), at, info.as_mut_ptr(), info.len()) }
        }

        pub fn marks(&self, kind: u32, source: &[u8], at: usize, info: &mut [u64]) -> u32 {
            // SAFETY: as above.
            unsafe { yugerzat_marks(kind, source.as_ptr(), source.len(), at, info.as_mut_ptr(), info.len()) }
        }

        /// The reader of a value at a place of a message.
        pub fn value(&self, value: Value, message: &[u8], at: usize, info: &mut [u64]) -> u32 {
            let reader = match value {
                Value::Message(Reading::Crate) => yugerzat_read_rpc_msg,
                Value::Message(Reading::Current) => yugerzat_read_current_rpc_msg,
                Value::AuthUnix => unreachable!("an auth_unix is read in a body"),
                Value::Fattr3 => yugerzat_read_fattr3,
                Value::Sattr3 => yugerzat_read_sattr3,
                Value::Diropargs3 => yugerzat_read_diropargs3,
            };
            // SAFETY: as above.
            unsafe { reader(message.as_ptr(), message.len(), at, info.as_mut_ptr(), info.len()) }
        }

        pub fn auth_unix(&self, message: &[u8], at: usize, count: usize, info: &mut [u64]) -> u32 {
            // SAFETY: as above.
            unsafe { yugerzat_read_auth_unix(message.as_ptr(), message.len(), at, count, info.as_mut_ptr(), info.len()) }
        }

        /// A writer, with as many of the sources as it takes.
        pub fn write(
            &self,
            writer: Writer,
            sources: [&[u8]; 2],
            fields: &[u64],
            out: &mut [u8],
            start: usize,
            info: &mut [u64],
        ) -> u32 {
            let [(first, length), (second, other)] = sources.map(|source| (source.as_ptr(), source.len()));
            let (list, count) = (fields.as_ptr(), fields.len());
            let (room, infos) = (out.len(), info.len());
            let (out, info) = (out.as_mut_ptr(), info.as_mut_ptr());
            let of_two = match writer {
                Writer::Reply(reading) => {
                    let of_one = match reading {
                        Reading::Crate => yugerzat_write_reply,
                        Reading::Current => yugerzat_write_current_reply,
                    };
                    // SAFETY: as above.
                    return unsafe { of_one(first, length, list, count, out, room, start, info, infos) };
                },
                // SAFETY: as above.
                Writer::Fattr3 => unsafe { return yugerzat_write_fattr3(list, count, out, room, start, info, infos) },
                // SAFETY: as above.
                Writer::Sattr3 => unsafe { return yugerzat_write_sattr3(list, count, out, room, start, info, infos) },
                Writer::Call => yugerzat_write_call,
                Writer::AuthUnix => yugerzat_write_auth_unix,
                Writer::Diropargs3 => yugerzat_write_diropargs3,
            };
            // SAFETY: as above.
            unsafe { of_two(first, length, second, other, list, count, out, room, start, info, infos) }
        }

        pub fn part(&self, message: &[u8], at: usize, count: usize, info: &mut [u64]) -> u32 {
            // SAFETY: as above.
            unsafe { yugerzat_part(message.as_ptr(), message.len(), at, count, info.as_mut_ptr(), info.len()) }
        }

        pub fn feed(&self, state: &mut [u64], run: &[u8], record: &mut [u8], info: &mut [u64]) -> u32 {
            let (states, length, room, infos) = (state.len(), run.len(), record.len(), info.len());
            let (state, record, info) = (state.as_mut_ptr(), record.as_mut_ptr(), info.as_mut_ptr());
            // SAFETY: as above.
            unsafe { yugerzat_feed(state, states, run.as_ptr(), length, record, room, info, infos) }
        }

        pub fn fragment(&self, message: &[u8], out: &mut [u8], start: usize, info: &mut [u64]) -> u32 {
            let (length, room, infos) = (message.len(), out.len(), info.len());
            // SAFETY: as above.
            unsafe { yugerzat_fragment(message.as_ptr(), length, out.as_mut_ptr(), room, start, info.as_mut_ptr(), infos) }
        }

        pub fn choose(&self, reading: Reading, message: &[u8], seen: u32, out: &mut [u8], info: &mut [u64]) -> u32 {
            let choose = match reading {
                Reading::Crate => yugerzat_choose,
                Reading::Current => yugerzat_current_choose,
            };
            let (length, room, infos) = (message.len(), out.len(), info.len());
            // SAFETY: as above.
            unsafe { choose(message.as_ptr(), length, seen, out.as_mut_ptr(), room, info.as_mut_ptr(), infos) }
        }

        pub fn ask(&self, message: &[u8], seen: u32, out: &mut [u8], info: &mut [u64]) -> u32 {
            let (length, room, infos) = (message.len(), out.len(), info.len());
            // SAFETY: as above.
            unsafe { yugerzat_ask(message.as_ptr(), length, seen, out.as_mut_ptr(), room, info.as_mut_ptr(), infos) }
        }

        /// What reads an export list, or what stands at a place of one.
        pub fn walk(&self, walk: Walk, message: &[u8], at: usize, info: &mut [u64]) -> u32 {
            let reader = match walk {
                Walk::Exports => yugerzat_read_exports,
                Walk::Export => yugerzat_next_export,
                Walk::Group => yugerzat_next_group,
            };
            // SAFETY: as above.
            unsafe { reader(message.as_ptr(), message.len(), at, info.as_mut_ptr(), info.len()) }
        }

        pub fn write_path(&self, source: &[u8], path: Piece, out: &mut [u8], start: usize, info: &mut [u64]) -> u32 {
            let (length, room, infos) = (source.len(), out.len(), info.len());
            let (source, out, info) = (source.as_ptr(), out.as_mut_ptr(), info.as_mut_ptr());
            // SAFETY: as above.
            unsafe { yugerzat_write_dirpath(source, length, path.place, path.count, out, room, start, info, infos) }
        }

        pub fn write_list(&self, source: &[u8], list: Piece, out: &mut [u8], start: usize, info: &mut [u64]) -> u32 {
            let (length, room, infos) = (source.len(), out.len(), info.len());
            let (source, out, info) = (source.as_ptr(), out.as_mut_ptr(), info.as_mut_ptr());
            // SAFETY: as above.
            unsafe { yugerzat_write_exports(source, length, list.place, list.count, out, room, start, info, infos) }
        }

        pub fn same(&self, sources: [&[u8]; 2], lists: [Piece; 2], info: &mut [u64]) -> u32 {
            let [(first, length), (second, other)] = sources.map(|source| (source.as_ptr(), source.len()));
            let [a, b] = lists;
            let (info, infos) = (info.as_mut_ptr(), info.len());
            // SAFETY: as above.
            unsafe { yugerzat_same_exports(first, length, a.place, a.count, second, other, b.place, b.count, info, infos) }
        }
    }
}

#[cfg(feature = "model")]
mod side {
    use crate::answers::Piece;
    use crate::model::{Fault, Model};
    use crate::shapes::Reading;
    use crate::values::{Value, Walk, Writer};

    pub struct Proved(Model);

    impl Proved {
        /// The model, with the fault that the environment variable FAULT names.
        pub fn new() -> Proved {
            let fault = std::env::var("FAULT").ok().filter(|name| !name.is_empty()).map(|name| {
                let fault = Fault::ALL.iter().find(|(_, known)| *known == name);
                fault.unwrap_or_else(|| panic!("no fault is called {name}")).0
            });
            Proved(Model::with(fault))
        }

        pub fn rewrite(&self, kind: u32, source: &[u8], at: usize, out: &mut [u8], info: &mut [u64]) -> u32 {
            self.0.exported_rewrite(kind, source, at, out, info)
        }

        pub fn judge(&self, kind: u32, source: &[u8], at: usize, info: &mut [u64]) -> u32 {
            self.0.exported_judge(kind, source, at, info)
        }

        pub fn marks(&self, kind: u32, source: &[u8], at: usize, info: &mut [u64]) -> u32 {
            self.0.exported_marks(kind, source, at, info)
        }

        pub fn value(&self, value: Value, message: &[u8], at: usize, info: &mut [u64]) -> u32 {
            self.0.exported_value(value, message, at, info)
        }

        pub fn auth_unix(&self, message: &[u8], at: usize, count: usize, info: &mut [u64]) -> u32 {
            self.0.exported_auth_unix(message, at, count, info)
        }

        pub fn write(
            &self,
            writer: Writer,
            sources: [&[u8]; 2],
            fields: &[u64],
            out: &mut [u8],
            start: usize,
            info: &mut [u64],
        ) -> u32 {
            self.0.exported_write(writer, sources, fields, out, start, info)
        }

        pub fn part(&self, message: &[u8], at: usize, count: usize, info: &mut [u64]) -> u32 {
            self.0.exported_part(message, at, count, info)
        }

        pub fn feed(&self, state: &mut [u64], run: &[u8], record: &mut [u8], info: &mut [u64]) -> u32 {
            self.0.exported_feed(state, run, record, info)
        }

        pub fn fragment(&self, message: &[u8], out: &mut [u8], start: usize, info: &mut [u64]) -> u32 {
            self.0.exported_fragment(message, out, start, info)
        }

        pub fn choose(&self, reading: Reading, message: &[u8], seen: u32, out: &mut [u8], info: &mut [u64]) -> u32 {
            self.0.exported_choose(reading, message, seen, out, info)
        }

        pub fn ask(&self, message: &[u8], seen: u32, out: &mut [u8], info: &mut [u64]) -> u32 {
            self.0.exported_ask(message, seen, out, info)
        }

        pub fn walk(&self, walk: Walk, message: &[u8], at: usize, info: &mut [u64]) -> u32 {
            self.0.exported_walk(walk, message, at, info)
        }

        pub fn write_path(&self, source: &[u8], path: Piece, out: &mut [u8], start: usize, info: &mut [u64]) -> u32 {
            self.0.exported_write_path(source, path, out, start, info)
        }

        pub fn write_list(&self, source: &[u8], list: Piece, out: &mut [u8], start: usize, info: &mut [u64]) -> u32 {
            self.0.exported_write_list(source, list, out, start, info)
        }

        pub fn same(&self, sources: [&[u8]; 2], lists: [Piece; 2], info: &mut [u64]) -> u32 {
            self.0.exported_same(sources, lists, info)
        }
    }
}
