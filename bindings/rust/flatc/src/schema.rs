//! Schemas that threads share.
use crate::bytes::{Bytes, Text};
use crate::error::Error;
use crate::handle::Handle;
use crate::options::{DecodeOptions, EncodeOptions};
use std::fmt;
use std::sync::{Mutex, MutexGuard, PoisonError, TryLockError};

/// A schema, parsed once and kept for any number of messages.
///
/// ```
/// let schema = flatc::Schema::new("table Monster { name:string; } root_type Monster;")?;
/// for json in [r#"{"name": "Orc"}"#, r#"{"name": "Elf"}"#] {
///     let buffer = schema.encode(json)?;
///     schema.verify(&buffer)?;
/// }
/// # Ok::<(), flatc::Error>(())
/// ```
///
/// # Threads
///
/// A schema is `Send` and `Sync`, and its calls run at the same time. It can be a `static`:
///
/// ```
/// use std::sync::OnceLock;
///
/// fn schema() -> &'static flatc::Schema {
///     static SCHEMA: OnceLock<flatc::Schema> = OnceLock::new();
///     SCHEMA.get_or_init(|| {
///         let text = "table Monster { name:string; } root_type Monster;";
///         flatc::Schema::new(text).expect("a schema that was tried")
///     })
/// }
///
/// std::thread::scope(|scope| {
///     for _ in 0..4 {
///         scope.spawn(|| schema().encode(r#"{"name": "Orc"}"#).unwrap());
///     }
/// });
/// ```
///
/// A handle of the library is in one call at a time, and a schema may have any number of handles. So a `Schema` has one
/// handle for calls, and each call tries to lock it. A call that finds it in use makes a handle of its own, which costs
/// an allocation. If memory for that runs out, the call waits for the first handle instead. A thread that has a
/// [clone](Schema::clone) for itself never finds the handle in use.
pub struct Schema {
    /// The handle for calls. Only a call holds its lock.
    first: Mutex<Handle>,
    /// The handle that others are made of. Its lock is held while one is made, and never during another call, so nobody
    /// waits for long.
    source: Mutex<Handle>,
}

impl Schema {
    /// Parses the text of a schema (.fbs), which has no includes.
    ///
    /// # Errors
    ///
    /// [`Error::Refused`] if the text declares no schema, or uses what isn't supported.
    ///
    /// ```
    /// use flatc::{FaultKind, Schema};
    ///
    /// let error = Schema::new("table T { a:[[int]]; }").unwrap_err();
    /// let refused = error.refused().unwrap();
    /// assert_eq!(refused.kind(), Some(FaultKind::NestedVector));
    /// assert_eq!(refused.offset(), Some(13));
    /// ```
    pub fn new(text: impl AsRef<[u8]>) -> Result<Schema, Error> {
        Schema::of(Handle::parse(text.as_ref())?)
    }

    fn of(mut source: Handle) -> Result<Schema, Error> {
        Ok(Schema {
            first: Mutex::new(source.share()?),
            source: Mutex::new(source),
        })
    }

    /// A handle for a single call.
    fn share(&self) -> Result<Handle, Error> {
        locked(&self.source).share()
    }

    /// Makes a call with a handle that no other call has.
    fn with_handle<T>(&self, call: impl FnOnce(&mut Handle) -> T) -> T {
        let mut first = match self.first.try_lock() {
            Ok(first) => first,
            Err(TryLockError::Poisoned(poisoned)) => poisoned.into_inner(),
            Err(TryLockError::WouldBlock) => match self.share() {
                Ok(mut handle) => return call(&mut handle),
                Err(_) => locked(&self.first),
            },
        };
        call(&mut first)
    }

    /// Another handle of the same schema, which isn't parsed again. The schema is freed with its last handle.
    ///
    /// # Errors
    ///
    /// [`Error::OutOfMemory`].
    ///
    /// ```
    /// let schema = flatc::Schema::new("table Monster { name:string; } root_type Monster;")?;
    /// let own = schema.try_clone()?;
    /// std::thread::spawn(move || own.encode(r#"{"name": "Orc"}"#).unwrap());
    /// # Ok::<(), flatc::Error>(())
    /// ```
    pub fn try_clone(&self) -> Result<Schema, Error> {
        Schema::of(self.share()?)
    }

    /// Converts a JSON text (UTF-8) to a FlatBuffer, with the default options.
    ///
    /// # Errors
    ///
    /// [`Error::Refused`] if the text isn't JSON, doesn't fit the schema or exceeds a limit, or if the buffer would be
    /// longer than 2147483647 bytes.
    ///
    /// ```
    /// use flatc::{FaultKind, Schema};
    ///
    /// let schema = Schema::new("table Monster { name:string; } root_type Monster;")?;
    /// let buffer = schema.encode(r#"{"name": "Orc"}"#)?;
    /// assert_eq!(buffer.len(), 28);
    ///
    /// let error = schema.encode(r#"{"nmae": "Orc"}"#).unwrap_err();
    /// assert_eq!(error.kind(), Some(FaultKind::UnknownMember));
    /// # Ok::<(), flatc::Error>(())
    /// ```
    pub fn encode(&self, json: impl AsRef<[u8]>) -> Result<Bytes, Error> {
        self.encode_with(json, &EncodeOptions::new())
    }

    /// Converts a JSON text (UTF-8) to a FlatBuffer.
    ///
    /// # Errors
    ///
    /// As of [`encode`](Schema::encode), and [`Error::BadOptions`].
    ///
    /// ```
    /// use flatc::{EncodeOptions, Schema};
    ///
    /// let schema = Schema::new("table Monster { name:string; } root_type Monster;")?;
    /// let json = r#"{"name": "Orc", "hair": "green"}"#;
    /// assert!(schema.encode(json).is_err());
    /// assert!(schema.encode_with(json, &EncodeOptions::new().unknown_json(true)).is_ok());
    /// # Ok::<(), flatc::Error>(())
    /// ```
    pub fn encode_with(&self, json: impl AsRef<[u8]>, options: &EncodeOptions) -> Result<Bytes, Error> {
        let (json, options) = (json.as_ref(), options.raw());
        self.with_handle(|handle| handle.encode(json, &options))
    }

    /// Verifies a FlatBuffer and converts it to JSON, with the default options.
    ///
    /// # Errors
    ///
    /// [`Error::Refused`] if the bytes encode no value, or if the value has a union code that the schema doesn't
    /// declare.
    ///
    /// ```
    /// let schema = flatc::Schema::new("table Monster { name:string; } root_type Monster;")?;
    /// let buffer = schema.encode(r#"{"name": "Orc"}"#)?;
    /// assert_eq!(schema.decode(&buffer)?, "{\n  \"name\": \"Orc\"\n}\n");
    /// assert!(schema.decode(&buffer[..20]).is_err());
    /// # Ok::<(), flatc::Error>(())
    /// ```
    pub fn decode(&self, buffer: impl AsRef<[u8]>) -> Result<Text, Error> {
        self.decode_with(buffer, &DecodeOptions::new())
    }

    /// Verifies a FlatBuffer and converts it to JSON.
    ///
    /// # Errors
    ///
    /// As of [`decode`](Schema::decode), and [`Error::BadOptions`].
    ///
    /// ```
    /// use flatc::{DecodeOptions, Schema};
    ///
    /// let schema = Schema::new("table Monster { name:string; } root_type Monster;")?;
    /// let buffer = schema.encode(r#"{"name": "Orc"}"#)?;
    /// let text = schema.decode_with(&buffer, &DecodeOptions::new().compact(true))?;
    /// assert_eq!(text, r#"{"name":"Orc"}"#);
    /// # Ok::<(), flatc::Error>(())
    /// ```
    pub fn decode_with(&self, buffer: impl AsRef<[u8]>, options: &DecodeOptions) -> Result<Text, Error> {
        let (buffer, options) = (buffer.as_ref(), options.raw());
        self.with_handle(|handle| handle.decode(buffer, &options))
    }

    /// Checks that the bytes encode a value, with the default options.
    ///
    /// # Errors
    ///
    /// [`Error::Refused`] if they encode none.
    ///
    /// ```
    /// use flatc::{FaultKind, Schema};
    ///
    /// let schema = Schema::new("table Monster { name:string; } root_type Monster;")?;
    /// schema.verify(schema.encode(r#"{"name": "Orc"}"#)?)?;
    /// assert_eq!(schema.verify(b"").unwrap_err().kind(), Some(FaultKind::Short));
    /// # Ok::<(), flatc::Error>(())
    /// ```
    pub fn verify(&self, buffer: impl AsRef<[u8]>) -> Result<(), Error> {
        self.verify_with(buffer, &DecodeOptions::new())
    }

    /// Checks that the bytes encode a value.
    ///
    /// [`DecodeOptions::defaults_json`] and [`DecodeOptions::compact`] don't matter here.
    ///
    /// # Errors
    ///
    /// As of [`verify`](Schema::verify), and [`Error::BadOptions`].
    ///
    /// ```
    /// use flatc::{DecodeOptions, EncodeOptions, Schema};
    ///
    /// let schema = Schema::new("table Monster { name:string; } root_type Monster;")?;
    /// let prefixed = EncodeOptions::new().size_prefixed(true);
    /// let buffer = schema.encode_with(r#"{"name": "Orc"}"#, &prefixed)?;
    /// schema.verify_with(&buffer, &DecodeOptions::new().size_prefixed(true))?;
    /// # Ok::<(), flatc::Error>(())
    /// ```
    pub fn verify_with(&self, buffer: impl AsRef<[u8]>, options: &DecodeOptions) -> Result<(), Error> {
        let (buffer, options) = (buffer.as_ref(), options.raw());
        self.with_handle(|handle| handle.verify(buffer, &options))
    }

    /// Checks that a newer schema conforms to this one: programs with either schema read the other's data.
    ///
    /// Names aren't compared. Only union members that its schema doesn't declare are refused by
    /// [`decode`](Schema::decode).
    ///
    /// # Errors
    ///
    /// [`Error::Refused`] with the first breach. Its type and slot have the numbers of this schema, except the slot of
    /// a new required field. Or [`Error::OutOfMemory`].
    ///
    /// ```
    /// use flatc::{FaultKind, Schema};
    ///
    /// let old = Schema::new("table Monster { name:string; } root_type Monster;")?;
    /// let new = Schema::new("table Monster { name:string; hp:short; } root_type Monster;")?;
    /// old.conform(&new)?;
    /// old.conform(&old)?;
    ///
    /// let error = new.conform(&old).unwrap_err();
    /// assert_eq!(error.kind(), Some(FaultKind::SlotGone));
    /// # Ok::<(), flatc::Error>(())
    /// ```
    pub fn conform(&self, newer: &Schema) -> Result<(), Error> {
        // A handle for this call alone: the two schemas may be one, and nobody waits for two locks.
        let mut newer = newer.share()?;
        self.with_handle(|handle| handle.conform(&mut newer))
    }
}

/// The content of a lock. No call unwinds, so a handle is whole even if the lock is poisoned.
fn locked(handle: &Mutex<Handle>) -> MutexGuard<'_, Handle> {
    handle.lock().unwrap_or_else(PoisonError::into_inner)
}

impl Clone for Schema {
    /// Another handle of the same schema, which isn't parsed again.
    ///
    /// # Panics
    ///
    /// If memory runs out. [`try_clone`](Schema::try_clone) returns an error then.
    ///
    /// ```
    /// let schema = flatc::Schema::new("table Monster { name:string; } root_type Monster;")?;
    /// let own = schema.clone();
    /// std::thread::spawn(move || own.encode(r#"{"name": "Orc"}"#).unwrap());
    /// # Ok::<(), flatc::Error>(())
    /// ```
    fn clone(&self) -> Schema {
        self.try_clone().expect("memory for a handle")
    }
}

impl fmt::Debug for Schema {
    fn fmt(&self, f: &mut fmt::Formatter<'_>) -> fmt::Result {
        f.debug_struct("Schema").finish_non_exhaustive()
    }
}

#[cfg(test)]
mod tests {
    use super::*;

    #[test]
    fn a_call_that_finds_the_handle_in_use_gets_another() {
        let schema = Schema::new("table Monster { name:string; } root_type Monster;").unwrap();
        let wanted = schema.encode("{}").unwrap();
        let in_use = schema.first.lock().unwrap();
        assert_eq!(schema.encode("{}").unwrap(), wanted);
        schema.verify(&wanted).unwrap();
        schema.conform(&schema).unwrap();
        drop(in_use);
        assert_eq!(schema.encode("{}").unwrap(), wanted);
    }

    #[test]
    fn a_lock_that_is_poisoned() {
        let schema = Schema::new("table Monster { name:string; } root_type Monster;").unwrap();
        std::thread::scope(|scope| {
            for handle in [&schema.first, &schema.source] {
                let holder = scope.spawn(move || {
                    let _held = handle.lock();
                    panic!("a test's own panic")
                });
                assert!(holder.join().is_err());
            }
        });
        schema.conform(&schema).unwrap();
        schema.encode("{}").unwrap();
    }
}
