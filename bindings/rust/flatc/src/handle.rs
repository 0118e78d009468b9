//! The calls over one handle of a schema.
//!
//! `&mut self` keeps flatc.h's rule that "a handle is used in one call at a time". Its rule "don't copy the struct" is
//! kept too: a `Handle` is moved between calls, and what it was moved from isn't used again.
use crate::bytes::{Bytes, Text};
use crate::error::{check, Error};
use flatc_sys as sys;
use sys::{flatc_options, FLATC_FAULT_INIT, FLATC_OPTIONS_INIT};

/// A handle that holds a schema.
pub(crate) struct Handle(sys::flatc_schema);

// SAFETY: flatc.h: "Any thread may use a handle, if the calls are ordered". Calls need `&mut`, so the threads that use
// a handle are ordered by what moves or lends it from one to the next.
unsafe impl Send for Handle {}

impl Drop for Handle {
    fn drop(&mut self) {
        // SAFETY: flatc.h: the handle was zeros before its first use, only calls wrote it, and no other call has it.
        unsafe { sys::flatc_schema_clear(&mut self.0) }
    }
}

impl Handle {
    const fn empty() -> Handle {
        Handle(sys::FLATC_SCHEMA_INIT)
    }

    pub(crate) fn parse(text: &[u8]) -> Result<Handle, Error> {
        let (mut schema, mut fault) = (Handle::empty(), FLATC_FAULT_INIT);
        let (data, size) = (text.as_ptr().cast(), text.len());
        // SAFETY: flatc.h: a handle of zeros, an input that is borrowed during the call, and a valid fault.
        let status = unsafe { sys::flatc_schema_parse(&mut schema.0, data, size, &mut fault) };
        check(status, &fault, &FLATC_OPTIONS_INIT)?;
        Ok(schema)
    }

    /// Another handle of the schema.
    pub(crate) fn share(&mut self) -> Result<Handle, Error> {
        let mut other = Handle::empty();
        // SAFETY: flatc.h: two different handles, each in no other call, the second of zeros.
        let status = unsafe { sys::flatc_schema_share(&mut self.0, &mut other.0) };
        check(status, &FLATC_FAULT_INIT, &FLATC_OPTIONS_INIT)?;
        Ok(other)
    }

    pub(crate) fn encode(&mut self, json: &[u8], options: &flatc_options) -> Result<Bytes, Error> {
        let (mut out, mut fault) = (Bytes::empty(), FLATC_FAULT_INIT);
        let (data, size) = (json.as_ptr().cast(), json.len());
        // SAFETY: flatc.h: each handle is in this call alone, the input is borrowed during it and is no part of the new
        // `out`, and options and fault are valid structs.
        let status = unsafe { sys::flatc_encode(&mut self.0, data, size, options, out.as_out(), &mut fault) };
        check(status, &fault, options)?;
        Ok(out)
    }

    pub(crate) fn decode(&mut self, buffer: &[u8], options: &flatc_options) -> Result<Text, Error> {
        let (mut out, mut fault) = (Bytes::empty(), FLATC_FAULT_INIT);
        let (data, size) = (buffer.as_ptr().cast(), buffer.len());
        // SAFETY: as in `encode`.
        let status = unsafe { sys::flatc_decode(&mut self.0, data, size, options, out.as_out(), &mut fault) };
        check(status, &fault, options)?;
        // SAFETY: flatc.h: flatc_decode converts a buffer "to JSON (UTF-8, no zero byte after it)".
        Ok(unsafe { Text::from_utf8_unchecked(out) })
    }

    pub(crate) fn verify(&mut self, buffer: &[u8], options: &flatc_options) -> Result<(), Error> {
        let mut fault = FLATC_FAULT_INIT;
        let (data, size) = (buffer.as_ptr().cast(), buffer.len());
        // SAFETY: flatc.h: the handle is in this call alone, the input is borrowed during it, and options and fault are
        // valid structs.
        let status = unsafe { sys::flatc_verify(&mut self.0, data, size, options, &mut fault) };
        check(status, &fault, options)
    }

    /// Whether a newer schema conforms to this one.
    pub(crate) fn conform(&mut self, newer: &mut Handle) -> Result<(), Error> {
        let mut fault = FLATC_FAULT_INIT;
        // SAFETY: flatc.h: two different handles, each in this call alone, and a valid fault.
        let status = unsafe { sys::flatc_conform(&mut self.0, &mut newer.0, &mut fault) };
        check(status, &fault, &FLATC_OPTIONS_INIT)
    }
}
