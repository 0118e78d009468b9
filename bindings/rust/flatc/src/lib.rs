//! JSON to [FlatBuffers](https://flatbuffers.dev) and back under schemas that are read at run time.
//!
//! The crate calls libflatc, whose code is proved: a buffer encodes exactly the value that the JSON text means, and a
//! buffer that is accepted is printed as exactly its value. No input makes a call panic or read out of bounds. The
//! crate itself isn't proved; it is a thin layer over `flatc-sys`.
//!
//! ```
//! let schema = flatc::Schema::new("table Monster { name:string; hp:short = 100; } root_type Monster;")?;
//!
//! let buffer = schema.encode(r#"{"name": "Orc"}"#)?;
//! assert_eq!(buffer.len(), 28);
//! assert_eq!(schema.decode(&buffer)?, "{\n  \"name\": \"Orc\"\n}\n");
//!
//! let error = schema.encode(r#"{"name": "Orc", "hp": 70000}"#).unwrap_err();
//! assert_eq!(error.kind(), Some(flatc::FaultKind::OutOfRange));
//! # Ok::<(), flatc::Error>(())
//! ```
//!
//! - [`Schema`] converts, verifies and compares. Threads may share it.
//! - [`EncodeOptions`] and [`DecodeOptions`] have limits and flags.
//! - [`Error`] separates a refused input from memory that ran out. [`Refused`] says which rule is broken and where.
//! - [`messages()`] splits a stream of size-prefixed buffers.
//!
//! # Stack, forks and signals
//!
//! A call takes up to 256 KiB of stack. Threads that Rust starts have 2 MiB unless the program asks for less.
//!
//! The library allocates by `malloc`. So don't call it from a signal handler, nor in the forked child of a process with
//! threads; both need `unsafe` code to happen.
#![deny(missing_docs, unsafe_op_in_unsafe_fn)]

mod bytes;
mod error;
mod fault;
mod handle;
mod messages;
mod options;
mod schema;

pub use bytes::{Bytes, Text};
pub use error::{Error, Refused};
pub use fault::FaultKind;
pub use messages::{messages, Messages, Truncated};
pub use options::{DecodeOptions, EncodeOptions};
pub use schema::Schema;

/// The version of the library that is linked: major, minor and patch.
///
/// ```
/// let (major, minor, _) = flatc::version();
/// assert!((major, minor) >= (0, 2));
/// ```
pub fn version() -> (u32, u32, u32) {
    // SAFETY: flatc.h sets no conditions on flatc_version.
    let number = unsafe { flatc_sys::flatc_version() };
    (number >> 16, number >> 8 & 255, number & 255)
}

/// The examples of the workspace's README.md are tests too.
#[cfg(doctest)]
#[doc = include_str!("../../README.md")]
struct Readme;
