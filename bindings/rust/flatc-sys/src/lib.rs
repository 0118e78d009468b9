//! The declarations of `flatc.h`, the header of libflatc, which converts between JSON and FlatBuffers.
//!
//! Programs use the safe crate `flatc`. This one declares each struct, constant and call of the header, and its build
//! script finds the library: in the folder that `FLATC_LIB_DIR` names, or else by `pkg-config`. `FLATC_STATIC=1` links
//! `libflatc.a`.
//!
//! # Safety
//!
//! A caller has to keep the rules of the header:
//!
//! - A handle ([`flatc_schema`], [`flatc_bytes`]) is all zeros before its first use, as [`FLATC_SCHEMA_INIT`] and
//!   [`FLATC_BYTES_INIT`] are. After that only the calls below write it. A handle may be moved, but of two copies only
//!   one may be used again.
//! - A handle is used in one call at a time, and the handles passed to one call are different ones. Any thread may use
//!   a handle, if the calls are ordered: by a lock, or by starting or joining a thread. Threads that share a schema
//!   need no lock if each has its own handle ([`flatc_schema_share`]).
//! - An input is `size` bytes that don't change during the call. It may be null where size is 0. It isn't part of the
//!   bytes held by `out`, which is cleared first.
//! - No other pointer is null: each points to a valid struct of its type, `options` and `fault` too.
//! - `malloc`, `realloc` and `free` come from one allocator. No call is made from a signal handler, nor in the forked
//!   child of a process with threads.
//!
//! A call takes up to 256 KiB of stack.
//!
//! # Example
//!
//! ```
//! use flatc_sys::*;
//!
//! let text = "table Monster { name:string; } root_type Monster;";
//! let (mut schema, mut fault) = (FLATC_SCHEMA_INIT, FLATC_FAULT_INIT);
//! // SAFETY: the handle is new, the text doesn't change, and the fault is a valid struct.
//! let status = unsafe {
//!     flatc_schema_parse(&mut schema, text.as_ptr().cast(), text.len(), &mut fault)
//! };
//! assert_eq!(status, FLATC_OK);
//! // SAFETY: no other call uses the handle.
//! unsafe { flatc_schema_clear(&mut schema) };
//! ```
#![no_std]
#![allow(non_camel_case_types)]
#![deny(missing_docs)]

use core::ffi::c_void;
use core::ptr::{null, null_mut};

/// How a call ended.
pub type flatc_status = u32;

/// The call did what it was asked for.
pub const FLATC_OK: flatc_status = 0;
/// The input is refused; the fault says why. The same input is refused each time.
pub const FLATC_REFUSED: flatc_status = 1;
/// Memory ran out.
pub const FLATC_NO_MEMORY: flatc_status = 2;
/// A schema's handle is empty.
pub const FLATC_NO_SCHEMA: flatc_status = 3;
/// `size` of the options is below 4 or above the struct's size, or `max_depth` isn't 1 to 127.
pub const FLATC_BAD_OPTIONS: flatc_status = 4;
/// The [`flatc_fault`] wasn't written by a call.
pub const FLATC_NO_FAULT: flatc_status = 5;

/// A schema, or none. The struct stays as it is in later versions.
#[repr(C)]
#[derive(Debug)]
pub struct flatc_schema {
    /// Private to the library.
    pub held: *mut c_void,
    /// Private to the library.
    pub full: bool,
}

/// A handle of no schema.
pub const FLATC_SCHEMA_INIT: flatc_schema = flatc_schema {
    held: null_mut(),
    full: false,
};

/// Bytes that a call made, or none: `size` bytes at `data`.
///
/// The library owns them until the handle is cleared or passed as `out` again. The struct stays as it is in later
/// versions.
#[repr(C)]
#[derive(Debug)]
pub struct flatc_bytes {
    /// The first byte; null in an empty handle.
    pub data: *const u8,
    /// How many bytes there are.
    pub size: usize,
    /// Private to the library.
    pub held: *mut c_void,
    /// Private to the library.
    pub full: bool,
}

/// A handle of no bytes.
pub const FLATC_BYTES_INIT: flatc_bytes = flatc_bytes {
    data: null(),
    size: 0,
    held: null_mut(),
    full: false,
};

/// Why a call refused. A field without its `has_..` is 0.
///
/// A call that returns [`FLATC_REFUSED`] writes it, and one that returns [`FLATC_OK`] doesn't. After any other status
/// its content is unspecified.
#[repr(C)]
#[derive(Clone, Copy, Debug, PartialEq, Eq)]
pub struct flatc_fault {
    /// In bytes from the start of the schema text or the buffer.
    pub offset: u64,
    /// The number of a declared type, from 0.
    pub type_id: u64,
    /// The slot of a field in that type.
    pub slot: u16,
    /// No other fault has this number, in any version.
    pub number: u8,
    /// Whether there is an offset.
    pub has_offset: bool,
    /// Whether there is a type.
    pub has_type: bool,
    /// Whether there is a slot.
    pub has_slot: bool,
    /// Zeros.
    pub reserved: [u8; 10],
    /// `char` in C: ASCII that ends with a zero byte.
    pub name: [u8; 32],
}

/// A fault that no call wrote.
pub const FLATC_FAULT_INIT: flatc_fault = flatc_fault {
    offset: 0,
    type_id: 0,
    slot: 0,
    number: 0,
    has_offset: false,
    has_type: false,
    has_slot: false,
    reserved: [0; 10],
    name: [0; 32],
};

/// How a message is converted; start from [`FLATC_OPTIONS_INIT`].
///
/// Fields outside the first `size` bytes have their defaults, but the whole struct must be readable. A later version of
/// the library may add fields after `reserved`, and still accepts this struct.
#[repr(C)]
#[derive(Clone, Copy, Debug, PartialEq, Eq)]
pub struct flatc_options {
    /// The struct's size; at least 4.
    pub size: u32,
    /// Maximum number of cells. Each table, vector and string counts one, and so does each byte of a string and each
    /// element of a vector.
    pub max_cells: u32,
    /// How deep tables may be nested, 1 to 127.
    pub max_depth: u8,
    /// [`flatc_encode`]: ignores unknown JSON fields.
    pub unknown_json: bool,
    /// [`flatc_decode`], [`flatc_verify`]: skips the file identifier check.
    pub raw_binary: bool,
    /// [`flatc_decode`]: includes fields with default values.
    pub defaults_json: bool,
    /// [`flatc_encode`], [`flatc_decode`], [`flatc_verify`]: the buffer begins with its length, as 32 bits.
    pub size_prefixed: bool,
    /// [`flatc_decode`]: no blanks and line feeds outside strings.
    pub compact: bool,
    /// No version reads it.
    pub reserved: [u8; 2],
}

/// The default options: 100,000,000 cells, a depth of 64, and nothing else.
pub const FLATC_OPTIONS_INIT: flatc_options = flatc_options {
    size: core::mem::size_of::<flatc_options>() as u32,
    max_cells: 100_000_000,
    max_depth: 64,
    unknown_json: false,
    raw_binary: false,
    defaults_json: false,
    size_prefixed: false,
    compact: false,
    reserved: [0; 2],
};

/// A fault's name, with zeros after it.
#[repr(C)]
#[derive(Clone, Copy, Debug, PartialEq, Eq)]
pub struct flatc_name {
    /// `char` in C: ASCII that ends with a zero byte.
    pub text: [u8; 32],
}

extern "C" {
    /// The version that the library was built with: 65536 times major, 256 times minor, and patch.
    pub fn flatc_version() -> u32;

    /// Parses a schema text (.fbs) without includes, and keeps what encoding and decoding need of it.
    ///
    /// What `schema` held is freed first. If the status isn't [`FLATC_OK`], the handle is empty.
    ///
    /// Returns [`FLATC_OK`], [`FLATC_REFUSED`] if the text declares no schema, or [`FLATC_NO_MEMORY`].
    pub fn flatc_schema_parse(
        schema: *mut flatc_schema,
        text: *const c_void,
        size: usize,
        fault: *mut flatc_fault,
    ) -> flatc_status;

    /// Makes `to` a second handle of the schema, for another thread. The schema is freed with its last handle.
    ///
    /// What `to` held is freed first. If the status isn't [`FLATC_OK`], `to` is empty.
    ///
    /// Returns [`FLATC_OK`], [`FLATC_NO_MEMORY`] or [`FLATC_NO_SCHEMA`].
    pub fn flatc_schema_share(from: *mut flatc_schema, to: *mut flatc_schema) -> flatc_status;

    /// Frees what the handle holds, if it holds something. It is empty then, and may be used again.
    pub fn flatc_schema_clear(schema: *mut flatc_schema);

    /// Frees what the handle holds, if it holds something. It is empty then, and may be used again.
    pub fn flatc_bytes_clear(bytes: *mut flatc_bytes);

    /// Converts a JSON text (UTF-8) to a FlatBuffer: bytes that encode exactly the value that the text means.
    ///
    /// If the status isn't [`FLATC_OK`], `out` is empty.
    ///
    /// Returns [`FLATC_OK`], [`FLATC_NO_MEMORY`], [`FLATC_NO_SCHEMA`] or [`FLATC_BAD_OPTIONS`], or [`FLATC_REFUSED`] if
    /// the text isn't JSON, doesn't fit the schema or exceeds a limit, or the buffer would be longer than 2147483647
    /// bytes.
    pub fn flatc_encode(
        schema: *mut flatc_schema,
        json: *const c_void,
        size: usize,
        options: *const flatc_options,
        out: *mut flatc_bytes,
        fault: *mut flatc_fault,
    ) -> flatc_status;

    /// Verifies a FlatBuffer and converts it to JSON (UTF-8, no zero byte after it).
    ///
    /// If the status isn't [`FLATC_OK`], `out` is empty.
    ///
    /// Returns [`FLATC_OK`], [`FLATC_NO_MEMORY`], [`FLATC_NO_SCHEMA`] or [`FLATC_BAD_OPTIONS`], or [`FLATC_REFUSED`] if
    /// the bytes encode no value, or the value has a union code that the schema doesn't declare.
    pub fn flatc_decode(
        schema: *mut flatc_schema,
        buffer: *const c_void,
        size: usize,
        options: *const flatc_options,
        out: *mut flatc_bytes,
        fault: *mut flatc_fault,
    ) -> flatc_status;

    /// Whether the bytes encode a value. Allocates nothing.
    ///
    /// Returns [`FLATC_OK`], [`FLATC_NO_SCHEMA`] or [`FLATC_BAD_OPTIONS`], or [`FLATC_REFUSED`] if they encode none.
    pub fn flatc_verify(
        schema: *mut flatc_schema,
        buffer: *const c_void,
        size: usize,
        options: *const flatc_options,
        fault: *mut flatc_fault,
    ) -> flatc_status;

    /// Whether a new schema conforms to an old one. The two handles are different.
    ///
    /// Returns [`FLATC_OK`] or [`FLATC_NO_SCHEMA`], or [`FLATC_REFUSED`] with the first breach. Types and slots have
    /// the old schema's numbers, except the slot of a new required field.
    pub fn flatc_conform(
        old_schema: *mut flatc_schema,
        new_schema: *mut flatc_schema,
        fault: *mut flatc_fault,
    ) -> flatc_status;

    /// The name of the fault with this number. Returns false and writes nothing if no call reports such a fault.
    pub fn flatc_fault_name(number: u8, name: *mut flatc_name) -> bool;

    /// The sentence of a fault: what is wrong and where, in one line without a line feed.
    ///
    /// Returns [`FLATC_OK`], [`FLATC_NO_MEMORY`] or [`FLATC_NO_FAULT`]. If it isn't [`FLATC_OK`], `out` is empty.
    pub fn flatc_fault_message(fault: *const flatc_fault, out: *mut flatc_bytes) -> flatc_status;

    /// A human-readable explanation, as `flatc --explain` prints it: lines of at most 120 columns, each ended by a line
    /// feed, without control characters.
    ///
    /// `schema` is the schema text; for [`flatc_conform`], the old one. `input` is the JSON text, the buffer or the new
    /// schema's text; for [`flatc_schema_parse`], null and 0. The options are those of the call that refused.
    ///
    /// Returns [`FLATC_OK`], [`FLATC_NO_MEMORY`], [`FLATC_BAD_OPTIONS`] or [`FLATC_NO_FAULT`]. If it isn't
    /// [`FLATC_OK`], `out` is empty.
    pub fn flatc_explain(
        fault: *const flatc_fault,
        schema: *const c_void,
        schema_size: usize,
        input: *const c_void,
        input_size: usize,
        options: *const flatc_options,
        out: *mut flatc_bytes,
    ) -> flatc_status;
}
