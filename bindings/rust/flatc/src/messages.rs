//! Streams of size-prefixed buffers.
use std::fmt;
use std::iter::FusedIterator;

/// Iterates over the messages of a stream of size-prefixed buffers, as `flatc --lines` and
/// [`EncodeOptions::size_prefixed`](crate::EncodeOptions::size_prefixed) write them.
///
/// A message begins with its length, and is decoded with
/// [`DecodeOptions::size_prefixed`](crate::DecodeOptions::size_prefixed). Nothing is copied, and no message is
/// verified.
///
/// ```
/// use flatc::{DecodeOptions, EncodeOptions, Schema};
///
/// let schema = Schema::new("table Monster { name:string; } root_type Monster;")?;
/// let mut stream = Vec::new();
/// for json in [r#"{"name":"Orc"}"#, r#"{"name":"Elf"}"#] {
///     let prefixed = EncodeOptions::new().size_prefixed(true);
///     stream.extend_from_slice(&schema.encode_with(json, &prefixed)?);
/// }
///
/// let options = DecodeOptions::new().size_prefixed(true).compact(true);
/// for message in flatc::messages(&stream) {
///     println!("{}", schema.decode_with(message?, &options)?);
/// }
/// # Ok::<(), Box<dyn std::error::Error>>(())
/// ```
pub fn messages(stream: &[u8]) -> Messages<'_> {
    Messages {
        rest: stream,
        offset: 0,
        ended: false,
    }
}

/// The messages of a stream. [`messages()`] makes it.
///
/// It ends after the last message, or after the error that the last one is incomplete.
///
/// ```
/// let mut messages = flatc::messages(&[2, 0, 0, 0, 7, 8, 0, 0, 0, 0]);
/// assert_eq!(messages.next(), Some(Ok(&[2, 0, 0, 0, 7, 8][..])));
/// assert_eq!(messages.next(), Some(Ok(&[0, 0, 0, 0][..])));
/// assert_eq!(messages.next(), None);
/// ```
#[derive(Clone, Debug)]
#[must_use = "iterators are lazy"]
pub struct Messages<'a> {
    rest: &'a [u8],
    offset: usize,
    ended: bool,
}

impl<'a> Messages<'a> {
    /// The bytes after the last message that was returned: what a reader keeps until more bytes have come.
    ///
    /// ```
    /// let mut messages = flatc::messages(&[1, 0, 0, 0, 7, 9, 0]);
    /// while let Some(Ok(message)) = messages.next() {
    ///     assert_eq!(message, [1, 0, 0, 0, 7]);
    /// }
    /// assert_eq!(messages.rest(), [9, 0]);
    /// ```
    pub fn rest(&self) -> &'a [u8] {
        self.rest
    }
}

impl<'a> Iterator for Messages<'a> {
    type Item = Result<&'a [u8], Truncated>;

    fn next(&mut self) -> Option<Self::Item> {
        if self.ended || self.rest.is_empty() {
            return None;
        }
        let Some(length) = message_length(self.rest) else {
            self.ended = true;
            return Some(Err(Truncated { offset: self.offset }));
        };
        let (message, rest) = self.rest.split_at(length);
        (self.rest, self.offset) = (rest, self.offset + length);
        Some(Ok(message))
    }
}

impl FusedIterator for Messages<'_> {}

/// How long the first message is with its prefix, if the bytes have all of it.
fn message_length(bytes: &[u8]) -> Option<usize> {
    let prefix = bytes.get(..4)?.try_into().ok()?;
    let length = usize::try_from(u32::from_le_bytes(prefix)).ok()?.checked_add(4)?;
    (length <= bytes.len()).then_some(length)
}

/// A stream ends within a message.
///
/// ```
/// let truncated = flatc::messages(&[9, 0, 0, 0, 1]).next().unwrap().unwrap_err();
/// assert_eq!(truncated.offset(), 0);
/// assert_eq!(truncated.to_string(), "the stream ends within the message at offset 0");
/// ```
#[derive(Clone, Copy, Debug, PartialEq, Eq)]
pub struct Truncated {
    offset: usize,
}

impl Truncated {
    /// Where the incomplete message begins, in bytes from the start of the stream.
    ///
    /// ```
    /// let last = flatc::messages(&[1, 0, 0, 0, 7, 9, 0]).last().unwrap();
    /// assert_eq!(last.unwrap_err().offset(), 5);
    /// ```
    pub fn offset(&self) -> usize {
        self.offset
    }
}

impl fmt::Display for Truncated {
    fn fmt(&self, f: &mut fmt::Formatter<'_>) -> fmt::Result {
        write!(f, "the stream ends within the message at offset {}", self.offset)
    }
}

impl std::error::Error for Truncated {}
