//! What the crate holds for a message, field by field; and what it writes for fields.
use num_traits::cast::{FromPrimitive, ToPrimitive};

use crate::nfs::*;
use crate::rpc::*;
use crate::xdr::XDR;

/// A field of a value.
#[derive(Clone, Debug, PartialEq, Eq)]
pub enum Field {
    Number(u64),
    Bytes(Vec<u8>),
    /// A list of words.
    Words(Vec<u32>),
}

use Field::{Bytes, Number, Words};

/// The fields of the message of a kind that begins at the start of `source`; none if the crate does not take it. What is
/// not set is 0. An `rpc_msg` has its `xid`, which of four it is, and ten more; each piece stands for two.
pub fn held(kind: &str, source: &[u8]) -> Option<Vec<Field>> {
    match kind {
        "rpc_msg" => rpc_msg_fields(read(source)?),
        "auth_unix" => auth_unix_fields(&read(source)?),
        "fattr3" => Some(fattr3_fields(&read(source)?)),
        "sattr3" => Some(sattr3_fields(&read(source)?)),
        "diropargs3" => {
            let diropargs3 { dir, name } = read(source)?;
            Some(vec![Bytes(dir.data), Bytes(name.0)])
        },
        _ => panic!("the fields of {kind} are not asked for"),
    }
}

/// What the crate writes for the fields that a writer of include/yugerzat.h has, bytes or words for each piece; none where
/// its types cannot hold them.
pub fn written(writer: &str, fields: &[Field]) -> Option<Vec<u8>> {
    match writer {
        "write_call" => bytes_of(&call(fields)?),
        "write_reply" => bytes_of(&reply(fields)?),
        "write_auth_unix" => bytes_of(&auth_unix_of(fields)?),
        "write_fattr3" => bytes_of(&fattr3_of(fields)?),
        "write_sattr3" => bytes_of(&sattr3_of(fields)?),
        "write_diropargs3" => match fields {
            [Bytes(dir), Bytes(name)] => {
                bytes_of(&diropargs3 { dir: nfs_fh3 { data: dir.clone() }, name: nfsstring(name.clone()) })
            },
            _ => panic!("these are not the fields of a diropargs3: {fields:?}"),
        },
        _ => panic!("there is no {writer}"),
    }
}

fn read<T: XDR + Default>(mut source: &[u8]) -> Option<T> {
    let mut value = T::default();
    value.deserialize(&mut source).ok()?;
    Some(value)
}

fn bytes_of(value: &impl XDR) -> Option<Vec<u8>> {
    let mut bytes = Vec::new();
    value.serialize(&mut bytes).expect("a vector can be written");
    Some(bytes)
}

fn number(value: &impl ToPrimitive) -> Field {
    Number(value.to_u64().expect("the numbers of an enumeration are not negative"))
}

fn rpc_msg_fields(message: rpc_msg) -> Option<Vec<Field>> {
    let auth = |auth: opaque_auth| [number(&auth.flavor), Bytes(auth.body)];
    let words = |words: &[u32]| words.iter().map(|word| Number(u64::from(*word))).collect::<Vec<Field>>();
    let mut fields = words(&[message.xid]);
    match message.body {
        rpc_body::CALL(call) => {
            fields.push(Number(0));
            fields.extend(words(&[call.rpcvers, call.prog, call.vers, call.proc]));
            fields.extend(auth(call.cred));
            fields.extend(auth(call.verf));
        },
        rpc_body::REPLY(reply_body::MSG_ACCEPTED(reply)) => {
            fields.push(Number(1));
            fields.extend(auth(reply.verf));
            fields.extend(words(&match reply.reply_data {
                accept_body::SUCCESS => [0, 0, 0],
                accept_body::PROG_UNAVAIL => [1, 0, 0],
                accept_body::PROG_MISMATCH(versions) => [2, versions.low, versions.high],
                accept_body::PROC_UNAVAIL => [3, 0, 0],
                accept_body::GARBAGE_ARGS => [4, 0, 0],
            }));
            fields.extend(words(&[0; 4]));
        },
        rpc_body::REPLY(reply_body::MSG_DENIED(rejected_reply::RPC_MISMATCH(versions))) => {
            fields.push(Number(2));
            fields.extend(words(&[versions.low, versions.high]));
            fields.extend(words(&[0; 8]));
        },
        rpc_body::REPLY(reply_body::MSG_DENIED(rejected_reply::AUTH_ERROR(reason))) => {
            fields.push(Number(3));
            fields.push(number(&reason));
            fields.extend(words(&[0; 9]));
        },
    }
    Some(fields)
}

/// The crate keeps these fields to itself: they are told by the bytes that it writes for them.
fn auth_unix_fields(value: &auth_unix) -> Option<Vec<Field>> {
    let bytes = bytes_of(value)?;
    let word = |at: usize| u32::from_be_bytes([bytes[at], bytes[at + 1], bytes[at + 2], bytes[at + 3]]);
    let end = 8 + word(4) as usize;
    let uid = end.next_multiple_of(4);
    let gids = (uid + 12..bytes.len()).step_by(4).map(word).collect();
    let number = |at: usize| Number(u64::from(word(at)));
    Some(vec![number(0), Bytes(bytes[8..end].to_vec()), number(uid), number(uid + 4), Words(gids)])
}

fn fattr3_fields(value: &fattr3) -> Vec<Field> {
    let word = |word: u32| Number(u64::from(word));
    vec![
        number(&value.ftype),
        word(value.mode),
        word(value.nlink),
        word(value.uid),
        word(value.gid),
        Number(value.size),
        Number(value.used),
        word(value.rdev.specdata1),
        word(value.rdev.specdata2),
        Number(value.fsid),
        Number(value.fileid),
        word(value.atime.seconds),
        word(value.atime.nseconds),
        word(value.mtime.seconds),
        word(value.mtime.nseconds),
        word(value.ctime.seconds),
        word(value.ctime.nseconds),
    ]
}

fn sattr3_fields(value: &sattr3) -> Vec<Field> {
    let option = |value: Option<u64>| [u64::from(value.is_some()), value.unwrap_or(0)];
    let client = |time: nfstime3| [2, u64::from(time.seconds), u64::from(time.nseconds)];
    let mut numbers = Vec::new();
    numbers.extend(option(match value.mode {
        set_mode3::Void => None,
        set_mode3::mode(mode) => Some(u64::from(mode)),
    }));
    numbers.extend(option(match value.uid {
        set_uid3::Void => None,
        set_uid3::uid(uid) => Some(u64::from(uid)),
    }));
    numbers.extend(option(match value.gid {
        set_gid3::Void => None,
        set_gid3::gid(gid) => Some(u64::from(gid)),
    }));
    numbers.extend(option(match value.size {
        set_size3::Void => None,
        set_size3::size(size) => Some(size),
    }));
    numbers.extend(match value.atime {
        set_atime::DONT_CHANGE => [0, 0, 0],
        set_atime::SET_TO_SERVER_TIME => [1, 0, 0],
        set_atime::SET_TO_CLIENT_TIME(time) => client(time),
    });
    numbers.extend(match value.mtime {
        set_mtime::DONT_CHANGE => [0, 0, 0],
        set_mtime::SET_TO_SERVER_TIME => [1, 0, 0],
        set_mtime::SET_TO_CLIENT_TIME(time) => client(time),
    });
    numbers.into_iter().map(Number).collect()
}

/// The numbers among the fields, in their order.
fn numbers(fields: &[Field]) -> Vec<u64> {
    fields.iter().filter_map(|field| if let Number(number) = field { Some(*number) } else { None }).collect()
}

fn word(number: u64) -> Option<u32> {
    u32::try_from(number).ok()
}

fn auth(flavor: u64, body: &[u8]) -> Option<opaque_auth> {
    Some(opaque_auth { flavor: auth_flavor::from_u64(flavor)?, body: body.to_vec() })
}

fn versions(low: u64, high: u64) -> Option<mismatch_info> {
    Some(mismatch_info { low: word(low)?, high: word(high)? })
}

fn call(fields: &[Field]) -> Option<rpc_msg> {
    let [Number(xid), Number(rpcvers), Number(prog), Number(vers), Number(proc), Number(cred), Bytes(cred_body), Number(verf), Bytes(verf_body)] =
        fields
    else {
        panic!("these are not the fields of a call: {fields:?}")
    };
    let call = call_body {
        rpcvers: word(*rpcvers)?,
        prog: word(*prog)?,
        vers: word(*vers)?,
        proc: word(*proc)?,
        cred: auth(*cred, cred_body)?,
        verf: auth(*verf, verf_body)?,
    };
    Some(rpc_msg { xid: word(*xid)?, body: rpc_body::CALL(call) })
}

/// A reply by its tag; the crate has none of another tag.
fn reply(fields: &[Field]) -> Option<rpc_msg> {
    let body = match fields {
        [_, Number(1), Number(flavor), Bytes(body), Number(status), Number(low), Number(high)] => {
            let reply_data = match _accept_stat::from_u64(*status)? {
                _accept_stat::SUCCESS => accept_body::SUCCESS,
                _accept_stat::PROG_UNAVAIL => accept_body::PROG_UNAVAIL,
                _accept_stat::PROG_MISMATCH => accept_body::PROG_MISMATCH(versions(*low, *high)?),
                _accept_stat::PROC_UNAVAIL => accept_body::PROC_UNAVAIL,
                _accept_stat::GARBAGE_ARGS => accept_body::GARBAGE_ARGS,
            };
            reply_body::MSG_ACCEPTED(accepted_reply { verf: auth(*flavor, body)?, reply_data })
        },
        [_, Number(2), Number(low), Number(high), ..] => {
            reply_body::MSG_DENIED(rejected_reply::RPC_MISMATCH(versions(*low, *high)?))
        },
        [_, Number(3), Number(reason), ..] => {
            reply_body::MSG_DENIED(rejected_reply::AUTH_ERROR(auth_stat::from_u64(*reason)?))
        },
        _ => return None,
    };
    let Number(xid) = &fields[0] else { panic!("these are not the fields of a reply: {fields:?}") };
    Some(rpc_msg { xid: word(*xid)?, body: rpc_body::REPLY(body) })
}

/// The crate keeps these fields to itself: it is given the bytes that they are, and must write the same again.
fn auth_unix_of(fields: &[Field]) -> Option<auth_unix> {
    let [Number(stamp), Bytes(name), Number(uid), Number(gid), Words(gids)] = fields else {
        panic!("these are not the fields of an auth_unix: {fields:?}")
    };
    let mut bytes = word(*stamp)?.to_be_bytes().to_vec();
    bytes.extend((name.len() as u32).to_be_bytes());
    bytes.extend(name);
    bytes.resize(bytes.len().next_multiple_of(4), 0);
    for number in [word(*uid)?, word(*gid)?, gids.len() as u32].iter().chain(gids) {
        bytes.extend(number.to_be_bytes());
    }
    let value = read(&bytes).expect("the crate takes it");
    assert_eq!(bytes_of(&value).as_ref(), Some(&bytes), "the crate writes what it read in published form");
    Some(value)
}

fn fattr3_of(fields: &[Field]) -> Option<fattr3> {
    let numbers = numbers(fields);
    let time = |at: usize| Some(nfstime3 { seconds: word(numbers[at])?, nseconds: word(numbers[at + 1])? });
    Some(fattr3 {
        ftype: ftype3::from_u64(numbers[0])?,
        mode: word(numbers[1])?,
        nlink: word(numbers[2])?,
        uid: word(numbers[3])?,
        gid: word(numbers[4])?,
        size: numbers[5],
        used: numbers[6],
        rdev: specdata3 { specdata1: word(numbers[7])?, specdata2: word(numbers[8])? },
        fsid: numbers[9],
        fileid: numbers[10],
        atime: time(11)?,
        mtime: time(13)?,
        ctime: time(15)?,
    })
}

fn sattr3_of(fields: &[Field]) -> Option<sattr3> {
    let numbers = numbers(fields);
    let is_set = |at: usize| numbers[at] != 0;
    let time = |at: usize| Some(nfstime3 { seconds: word(numbers[at])?, nseconds: word(numbers[at + 1])? });
    Some(sattr3 {
        mode: if is_set(0) { set_mode3::mode(word(numbers[1])?) } else { set_mode3::Void },
        uid: if is_set(2) { set_uid3::uid(word(numbers[3])?) } else { set_uid3::Void },
        gid: if is_set(4) { set_gid3::gid(word(numbers[5])?) } else { set_gid3::Void },
        size: if is_set(6) { set_size3::size(numbers[7]) } else { set_size3::Void },
        atime: match _time_how::from_u64(numbers[8])? {
            _time_how::DONT_CHANGE => set_atime::DONT_CHANGE,
            _time_how::SET_TO_SERVER_TIME => set_atime::SET_TO_SERVER_TIME,
            _time_how::SET_TO_CLIENT_TIME => set_atime::SET_TO_CLIENT_TIME(time(9)?),
        },
        mtime: match _time_how::from_u64(numbers[11])? {
            _time_how::DONT_CHANGE => set_mtime::DONT_CHANGE,
            _time_how::SET_TO_SERVER_TIME => set_mtime::SET_TO_SERVER_TIME,
            _time_how::SET_TO_CLIENT_TIME => set_mtime::SET_TO_CLIENT_TIME(time(12)?),
        },
    })
}
