//! The values that are exported one by one, and the writers of what their readers give.
use crate::shapes::Reading;

#[derive(Clone, Copy, Debug, PartialEq, Eq)]
pub enum Value {
    /// An `rpc_msg`, in either reading.
    Message(Reading),
    /// Read inside a credential's body.
    AuthUnix,
    Fattr3,
    Sattr3,
    Diropargs3,
}

impl Value {
    /// Those that are read from a place of a message.
    pub const PLACED: [Value; 5] =
        [Value::Message(Reading::Crate), Value::Message(Reading::Current), Value::Fattr3, Value::Sattr3, Value::Diropargs3];

    /// The name of its kind.
    pub fn kind(self) -> &'static str {
        match self {
            Value::Message(Reading::Crate) => "rpc_msg",
            Value::Message(Reading::Current) => "current_rpc_msg",
            Value::AuthUnix => "auth_unix",
            Value::Fattr3 => "fattr3",
            Value::Sattr3 => "sattr3",
            Value::Diropargs3 => "diropargs3",
        }
    }

    /// The reader's name in include/yugerzat.h, without what all begin with.
    pub fn reader(self) -> &'static str {
        match self {
            Value::Message(Reading::Crate) => "read_rpc_msg",
            Value::Message(Reading::Current) => "read_current_rpc_msg",
            Value::AuthUnix => "read_auth_unix",
            Value::Fattr3 => "read_fattr3",
            Value::Sattr3 => "read_sattr3",
            Value::Diropargs3 => "read_diropargs3",
        }
    }

    /// How many figures its reader has.
    pub fn figures(self) -> usize {
        match self {
            Value::Message(_) => 14,
            Value::AuthUnix => 9,
            Value::Fattr3 => 19,
            Value::Sattr3 => 16,
            Value::Diropargs3 => 6,
        }
    }
}

/// What is read of an export list: all of it, the entry at a place, or the name at a place of an entry's groups.
#[derive(Clone, Copy, Debug, PartialEq, Eq)]
pub enum Walk {
    Exports,
    Export,
    Group,
}

impl Walk {
    /// The reader's name in include/yugerzat.h, without what all begin with.
    pub fn reader(self) -> &'static str {
        match self {
            Walk::Exports => "read_exports",
            Walk::Export => "next_export",
            Walk::Group => "next_group",
        }
    }

    /// How many figures its reader has.
    pub fn figures(self) -> usize {
        match self {
            Walk::Exports => 4,
            Walk::Export => 7,
            Walk::Group => 5,
        }
    }
}

/// What is written by its fields. An `rpc_msg` has two writers: a call is the same in both readings.
#[derive(Clone, Copy, Debug, PartialEq, Eq)]
pub enum Writer {
    Call,
    Reply(Reading),
    AuthUnix,
    Fattr3,
    Sattr3,
    Diropargs3,
}

/// A piece among a writer's fields.
#[derive(Clone, Copy, Debug, PartialEq, Eq)]
pub struct PieceField {
    /// Its place stands in this field, and its count in the next.
    pub at: usize,
    /// Which source it is a piece of: 0 or 1.
    pub source: usize,
    /// The bytes of what is counted.
    pub width: usize,
}

impl Writer {
    pub const ALL: [Writer; 7] = [
        Writer::Call,
        Writer::Reply(Reading::Crate),
        Writer::Reply(Reading::Current),
        Writer::AuthUnix,
        Writer::Fattr3,
        Writer::Sattr3,
        Writer::Diropargs3,
    ];

    /// The value whose reader gives its fields.
    pub fn value(self) -> Value {
        match self {
            Writer::Call => Value::Message(Reading::Crate),
            Writer::Reply(reading) => Value::Message(reading),
            Writer::AuthUnix => Value::AuthUnix,
            Writer::Fattr3 => Value::Fattr3,
            Writer::Sattr3 => Value::Sattr3,
            Writer::Diropargs3 => Value::Diropargs3,
        }
    }

    /// Its name in include/yugerzat.h, without what all begin with.
    pub fn name(self) -> &'static str {
        match self {
            Writer::Call => "write_call",
            Writer::Reply(Reading::Crate) => "write_reply",
            Writer::Reply(Reading::Current) => "write_current_reply",
            Writer::AuthUnix => "write_auth_unix",
            Writer::Fattr3 => "write_fattr3",
            Writer::Sattr3 => "write_sattr3",
            Writer::Diropargs3 => "write_diropargs3",
        }
    }

    /// How many fields it has.
    pub fn fields(self) -> usize {
        match self {
            Writer::Call => 11,
            Writer::Reply(_) => 8,
            Writer::AuthUnix => 7,
            Writer::Fattr3 => 17,
            Writer::Sattr3 => 14,
            Writer::Diropargs3 => 4,
        }
    }

    /// How many sources it takes.
    pub fn sources(self) -> usize {
        match self {
            Writer::Call | Writer::AuthUnix | Writer::Diropargs3 => 2,
            Writer::Reply(_) => 1,
            Writer::Fattr3 | Writer::Sattr3 => 0,
        }
    }

    /// The pieces among its fields; that of a reply is one only if the reply is accepted.
    pub fn pieces(self) -> &'static [PieceField] {
        match self {
            Writer::Call => &[PieceField { at: 6, source: 0, width: 1 }, PieceField { at: 9, source: 1, width: 1 }],
            Writer::Reply(_) => &[PieceField { at: 3, source: 0, width: 1 }],
            Writer::AuthUnix => &[PieceField { at: 1, source: 0, width: 1 }, PieceField { at: 5, source: 1, width: 4 }],
            Writer::Diropargs3 => &[PieceField { at: 0, source: 0, width: 1 }, PieceField { at: 2, source: 1, width: 1 }],
            Writer::Fattr3 | Writer::Sattr3 => &[],
        }
    }

    /// Its fields among the figures of its reader; none for a message that the other writer is for.
    pub fn fields_of(self, figures: &[u64]) -> Option<Vec<u64>> {
        let is_call = figures[3] == 0;
        match self {
            Writer::Call => is_call.then(|| [&figures[2..3], &figures[4..]].concat()),
            Writer::Reply(_) => (!is_call).then(|| figures[2..10].to_vec()),
            Writer::AuthUnix | Writer::Fattr3 | Writer::Sattr3 | Writer::Diropargs3 => Some(figures[2..].to_vec()),
        }
    }
}
