// Stands in the same module as the crate's rpcwire.rs (see build.rs), so that its private functions can be asked.

use std::os::fd::OwnedFd;
use std::os::unix::net::UnixStream;
use std::sync::Arc;
use std::time::Duration;

use tokio::runtime::Runtime;

use crate::reading::{refusal, Reading};
use crate::spies::{taken, HandOver, Handler};
use crate::transaction_tracker::TransactionTracker;

/// What `handle_rpc` did with a message.
#[derive(Debug)]
pub enum Choice {
    HandedOver(HandOver),
    Replied,
    Silent,
    /// Refusal 1 or 2.
    Refused(Reading),
    /// An error that is not one of reading: a REPLY came.
    NotACall,
}

/// What one of the crate's own handlers did with a call.
#[derive(Debug, PartialEq, Eq)]
pub enum Handled {
    /// It wrote these bytes, and left so many of the arguments.
    Wrote(Vec<u8>, usize),
    /// Refusal 1 or 2 of the arguments.
    Refused(Reading),
}

/// What `read_fragment` made of a stream.
#[derive(Debug, Default, PartialEq, Eq)]
pub struct Records {
    /// Each record, with the count of stream bytes used up to its end.
    pub complete: Vec<(Vec<u8>, usize)>,
    /// The record begun when the stream ended. A fragment cut short is filled up with zeros to its claimed length.
    pub begun: Vec<u8>,
}

/// Asks the crate's stream functions. One for each thread: it holds a runtime, a context and a pair of sockets.
pub struct Wire {
    runtime: Runtime,
    context: RPCContext,
    /// `write_fragment` wants a TcpStream; one end of a socket pair serves, and no network is needed.
    socket: tokio::net::TcpStream,
    other_end: tokio::net::UnixStream,
}

impl Wire {
    pub fn new() -> std::io::Result<Wire> {
        let runtime = tokio::runtime::Builder::new_current_thread().enable_io().build()?;
        let (near, far) = UnixStream::pair()?;
        near.set_nonblocking(true)?;
        far.set_nonblocking(true)?;
        let (socket, other_end) = {
            let _inside = runtime.enter();
            let near = std::net::TcpStream::from(OwnedFd::from(near));
            (tokio::net::TcpStream::from_std(near)?, tokio::net::UnixStream::from_std(far)?)
        };
        let context = RPCContext {
            local_port: 2049,
            client_addr: String::from("client"),
            auth: auth_unix::default(),
            vfs: Arc::new(crate::filesystem::Unreached),
            mount_signal: None,
            export_name: Arc::new(String::new()),
            transaction_tracker: Arc::new(TransactionTracker::new(Duration::from_secs(60))),
        };
        Ok(Wire { runtime, context, socket, other_end })
    }

    /// `handle_rpc` on a message. If `seen`, the tracker has been told of its transaction before. `reply` is what was written.
    pub fn choose(&self, message: &[u8], seen: bool, reply: &mut Vec<u8>) -> Choice {
        let mut context = self.context.clone();
        context.transaction_tracker = Arc::new(TransactionTracker::new(Duration::from_secs(60)));
        if let (true, Some(xid)) = (seen, message.first_chunk()) {
            context.transaction_tracker.is_retransmission(u32::from_be_bytes(*xid), &context.client_addr);
        }
        reply.clear();
        let mut input = message;
        let answer = self.runtime.block_on(handle_rpc(&mut input, reply, context));
        match (answer, taken()) {
            (Ok(true), Some(noted)) => Choice::HandedOver(noted),
            (Ok(true), None) => Choice::Replied,
            (Ok(false), _) => Choice::Silent,
            (Err(error), _) => match error.downcast_ref::<std::io::Error>() {
                Some(error) => Choice::Refused(refusal(error.kind())),
                None => Choice::NotACall,
            },
        }
    }

    /// `handle_portmap` or `handle_mount` on a call with these arguments, where `export` is the name of what is exported. (No
    /// file system is there: a path that begins with this name must not be mounted.)
    pub fn handled(&self, handler: Handler, call: [u32; 3], arguments: &[u8], export: &str) -> Handled {
        let [xid, vers, proc] = call;
        let call = call_body { rpcvers: 2, vers, proc, ..call_body::default() };
        let context = RPCContext { export_name: Arc::new(export.to_owned()), ..self.context.clone() };
        let (mut input, mut output) = (arguments, Vec::new());
        let answer = match handler {
            Handler::Nfs => panic!("the handler of NFS is not asked"),
            Handler::Portmap => {
                crate::own_portmap_handlers::handle_portmap(xid, call, &mut input, &mut output, &context)
            },
            Handler::Mount => self.runtime.block_on(crate::own_mount_handlers::handle_mount(
                xid,
                call,
                &mut input,
                &mut output,
                &context,
            )),
        };
        match answer {
            Ok(()) => Handled::Wrote(output, input.len()),
            Err(error) => {
                let error = error.downcast_ref::<std::io::Error>().expect("a handler fails only where it reads");
                Handled::Refused(refusal(error.kind()))
            },
        }
    }

    /// `read_fragment` until the stream ends.
    pub fn records(&self, stream: &[u8]) -> Records {
        self.runtime.block_on(async {
            let (mut near, mut far) = tokio::io::duplex(stream.len().max(1));
            near.write_all(stream).await.expect("the pipe holds the whole stream");
            drop(near);
            let mut records = Records::default();
            let mut used = 0;
            loop {
                let before = records.begun.len();
                let Ok(last) = read_fragment(&mut far, &mut records.begun).await else { return records };
                used += 4 + records.begun.len() - before;
                if last {
                    records.complete.push((std::mem::take(&mut records.begun), used));
                }
            }
        })
    }

    /// What `write_fragment` sends for a message.
    pub fn fragment(&mut self, message: &[u8], sent: &mut Vec<u8>) {
        let Wire { runtime, socket, other_end, .. } = self;
        sent.clear();
        sent.resize(message.len() + 4, 0);
        runtime.block_on(async {
            // At the same time, because a long message is more than the sockets hold.
            let (wrote, read) = tokio::join!(write_fragment(socket, message), other_end.read_exact(sent));
            wrote.expect("the socket can be written");
            read.expect("the socket can be read");
            let mut more = [0_u8; 1];
            assert!(other_end.try_read(&mut more).is_err(), "write_fragment sent more than a header and the message");
        });
    }
}
