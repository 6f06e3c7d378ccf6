//! nfsserve 0.11.0 as published, and the functions through which the oracle asks it.
//!
//! The modules come unchanged from the crate's own folder (see build.rs). Only the three handler modules are ours:
//! they note that they were called, because the port ends at the hand-over. Two of the crate's own handlers are there
//! beside them, and are asked by themselves.

// The crate's own code is not ours to tidy.
#![allow(dead_code, unused_imports, unused_macros, non_local_definitions, clippy::all)]

include!(concat!(env!("OUT_DIR"), "/modules.rs"));

mod filesystem;
mod mounting;
mod reading;
mod spies;
mod values;

use spies::{mount_handlers, nfs_handlers, portmap_handlers};

pub use mounting::{read_beside, reply, Reply, MOUNT_VERSION, PORT_MAPPER_VERSION};
pub use reading::{read, Reading, KINDS};
pub use rpcwire::{Choice, Handled, Records, Wire};
pub use spies::{HandOver, Handler};
pub use values::{held, written, Field};
