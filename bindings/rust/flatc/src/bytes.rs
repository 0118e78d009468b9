//! What calls return: bytes and text in memory of the library.
use flatc_sys as sys;
use std::fmt;
use std::ops::Deref;

/// Bytes that a call made, in memory of the library. They are read as a `[u8]`.
///
/// ```
/// let schema = flatc::Schema::new("table Monster { name:string; } root_type Monster;")?;
/// let buffer: flatc::Bytes = schema.encode(r#"{"name": "Orc"}"#)?;
/// assert_eq!(buffer.len() % 4, 0);
/// let copy: Vec<u8> = buffer.to_vec();
/// assert_eq!(copy, *buffer);
/// # Ok::<(), flatc::Error>(())
/// ```
pub struct Bytes(sys::flatc_bytes);

// SAFETY: flatc.h: "Any thread may use a handle, if the calls are ordered". The only call on the handle of a finished
// `Bytes` is the one in `drop`, which owns it.
unsafe impl Send for Bytes {}
// SAFETY: as for `Send`; a `&Bytes` only reads bytes that the library doesn't write until `drop`.
unsafe impl Sync for Bytes {}

impl Bytes {
    pub(crate) const fn empty() -> Bytes {
        Bytes(sys::FLATC_BYTES_INIT)
    }

    /// The handle, to be passed to a call as `out`.
    pub(crate) fn as_out(&mut self) -> *mut sys::flatc_bytes {
        &mut self.0
    }
}

impl Deref for Bytes {
    type Target = [u8];

    fn deref(&self) -> &[u8] {
        if self.0.data.is_null() {
            return &[];
        }
        // SAFETY: flatc.h: a handle that a call filled has "`size` bytes at `data`", and "the library owns them until
        // the handle is cleared or passed as `out` again". Both need `&mut self`.
        unsafe { std::slice::from_raw_parts(self.0.data, self.0.size) }
    }
}

impl Drop for Bytes {
    fn drop(&mut self) {
        // SAFETY: flatc.h: the handle was zeros before its first use, only calls wrote it, and no other call has it.
        unsafe { sys::flatc_bytes_clear(&mut self.0) }
    }
}

impl AsRef<[u8]> for Bytes {
    fn as_ref(&self) -> &[u8] {
        self
    }
}

impl fmt::Debug for Bytes {
    fn fmt(&self, f: &mut fmt::Formatter<'_>) -> fmt::Result {
        fmt::Debug::fmt(&**self, f)
    }
}

impl PartialEq for Bytes {
    fn eq(&self, other: &Bytes) -> bool {
        **self == **other
    }
}

impl Eq for Bytes {}

impl From<Bytes> for Vec<u8> {
    fn from(bytes: Bytes) -> Vec<u8> {
        bytes.to_vec()
    }
}

/// A JSON text that [`Schema::decode`](crate::Schema::decode) made, in memory of the library. It is read as a `str`.
///
/// ```
/// let schema = flatc::Schema::new("table Monster { name:string; } root_type Monster;")?;
/// let text: flatc::Text = schema.decode(&schema.encode(r#"{"name": "Orc"}"#)?)?;
/// assert!(text.contains("Orc"));
/// println!("{text}");
/// let copy: String = text.into();
/// # Ok::<(), flatc::Error>(())
/// ```
pub struct Text(Bytes);

impl Text {
    /// # Safety
    ///
    /// The bytes are UTF-8.
    pub(crate) unsafe fn from_utf8_unchecked(bytes: Bytes) -> Text {
        debug_assert!(std::str::from_utf8(&bytes).is_ok());
        Text(bytes)
    }
}

impl Deref for Text {
    type Target = str;

    fn deref(&self) -> &str {
        // SAFETY: `from_utf8_unchecked`, which alone makes a `Text`, is called with UTF-8.
        unsafe { std::str::from_utf8_unchecked(&self.0) }
    }
}

impl AsRef<str> for Text {
    fn as_ref(&self) -> &str {
        self
    }
}

impl AsRef<[u8]> for Text {
    fn as_ref(&self) -> &[u8] {
        &self.0
    }
}

impl fmt::Display for Text {
    fn fmt(&self, f: &mut fmt::Formatter<'_>) -> fmt::Result {
        f.pad(self)
    }
}

impl fmt::Debug for Text {
    fn fmt(&self, f: &mut fmt::Formatter<'_>) -> fmt::Result {
        fmt::Debug::fmt(&**self, f)
    }
}

impl PartialEq for Text {
    fn eq(&self, other: &Text) -> bool {
        **self == **other
    }
}

impl Eq for Text {}

impl PartialEq<str> for Text {
    fn eq(&self, other: &str) -> bool {
        **self == *other
    }
}

impl PartialEq<&str> for Text {
    fn eq(&self, other: &&str) -> bool {
        **self == **other
    }
}

impl From<Text> for String {
    fn from(text: Text) -> String {
        text.to_string()
    }
}
