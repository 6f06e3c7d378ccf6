//! Handlers that do nothing but note what `handle_rpc` handed over to them.
use std::cell::RefCell;
use std::io::Read;

use crate::context::RPCContext;
use crate::rpc::{auth_flavor, call_body};
use crate::xdr::XDR;

#[derive(Clone, Copy, Debug, PartialEq, Eq)]
pub enum Handler {
    Nfs,
    Portmap,
    Mount,
}

/// What a handler was given.
#[derive(Debug)]
pub struct HandOver {
    pub handler: Handler,
    pub xid: u32,
    pub program: u32,
    pub version: u32,
    pub procedure: u32,
    /// The `auth_unix` of the context as the crate writes it; none unless the credential is AUTH_UNIX.
    pub auth_unix: Option<Vec<u8>>,
    /// How many bytes the handler could still read: the call's arguments.
    pub left: usize,
}

thread_local!(static NOTED: RefCell<Option<HandOver>> = const { RefCell::new(None) });

/// The hand-over since the last call of this function, if any.
pub fn taken() -> Option<HandOver> {
    NOTED.with(|n| n.borrow_mut().take())
}

fn note(handler: Handler, xid: u32, call: &call_body, input: &mut impl Read, context: &RPCContext) {
    let left = std::io::copy(input, &mut std::io::sink()).expect("a slice can be read") as usize;
    let mut auth = Vec::new();
    context.auth.serialize(&mut auth).expect("a vector can be written");
    let auth_unix = if let auth_flavor::AUTH_UNIX = call.cred.flavor {
        Some(auth)
    } else {
        // The crate has no word for none: the context keeps what it began with.
        assert_eq!(auth, [0; 20], "without AUTH_UNIX the context is left alone");
        None
    };
    let noted = HandOver { handler, xid, program: call.prog, version: call.vers, procedure: call.proc, auth_unix, left };
    NOTED.with(|n| *n.borrow_mut() = Some(noted));
}

macro_rules! spy {
    ($module:ident, $function:ident, $handler:expr, $($waits:tt)?) => {
        pub mod $module {
            use std::io::{Read, Write};

            use crate::context::RPCContext;
            use crate::rpc::call_body;

            pub $($waits)? fn $function(
                xid: u32,
                call: call_body,
                input: &mut impl Read,
                _output: &mut impl Write,
                context: &RPCContext,
            ) -> Result<(), anyhow::Error> {
                super::note($handler, xid, &call, input, context);
                Ok(())
            }
        }
    };
}
spy!(nfs_handlers, handle_nfs, super::Handler::Nfs, async);
spy!(mount_handlers, handle_mount, super::Handler::Mount, async);
spy!(portmap_handlers, handle_portmap, super::Handler::Portmap,);
