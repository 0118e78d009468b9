//! Why calls fail.
use crate::bytes::Bytes;
use crate::fault::FaultKind;
use flatc_sys as sys;
use std::fmt;
use sys::{flatc_fault, flatc_options, flatc_status};

/// Why a call failed.
///
/// ```
/// use flatc::{Error, Schema};
///
/// match Schema::new("table T { a:[[int]]; }") {
///     Ok(_) => println!("a schema"),
///     Err(Error::Refused(refused)) => println!("{}: {refused}", refused.name()),
///     Err(Error::OutOfMemory) => println!("try again later"),
///     Err(other) => println!("{other}"),
/// }
/// ```
#[derive(Clone, Debug, PartialEq, Eq)]
#[non_exhaustive]
pub enum Error {
    /// The input is refused. The same input is refused each time.
    Refused(Refused),
    /// Memory ran out.
    OutOfMemory,
    /// The options have a `max_depth` that isn't 1 to 127.
    BadOptions,
    /// A status that this crate doesn't know. Only a later version of the library returns one.
    UnknownStatus(u32),
}

impl Error {
    /// The refusal, if the input is refused.
    ///
    /// ```
    /// use flatc::Schema;
    ///
    /// let error = Schema::new("table T { a:[[int]]; }").unwrap_err();
    /// assert_eq!(error.refused().map(|it| it.number()), Some(6));
    /// ```
    pub fn refused(&self) -> Option<&Refused> {
        match self {
            Error::Refused(refused) => Some(refused),
            _ => None,
        }
    }

    /// The kind of fault, if the input is refused for one that this crate knows.
    ///
    /// ```
    /// use flatc::{FaultKind, Schema};
    ///
    /// let error = Schema::new("table T { a:[[int]]; }").unwrap_err();
    /// assert_eq!(error.kind(), Some(FaultKind::NestedVector));
    /// ```
    pub fn kind(&self) -> Option<FaultKind> {
        self.refused()?.kind()
    }
}

impl fmt::Display for Error {
    fn fmt(&self, f: &mut fmt::Formatter<'_>) -> fmt::Result {
        match self {
            Error::Refused(refused) => refused.fmt(f),
            Error::OutOfMemory => f.write_str("out of memory"),
            Error::BadOptions => f.write_str("max_depth isn't 1 to 127"),
            Error::UnknownStatus(status) => write!(f, "libflatc returned the status {status}"),
        }
    }
}

impl std::error::Error for Error {}

impl From<Refused> for Error {
    fn from(refused: Refused) -> Error {
        Error::Refused(refused)
    }
}

/// Which rule an input breaks, and where.
///
/// It prints as a sentence. It keeps the options of the call, which [`explain`](Refused::explain) needs.
///
/// ```
/// let schema = flatc::Schema::new("table Monster { hp:short; } root_type Monster;")?;
/// let error = schema.encode(r#"{"hp": 70000}"#).unwrap_err();
/// let refused = error.refused().unwrap();
/// assert_eq!((refused.number(), refused.name()), (72, "OutOfRange"));
/// assert_eq!((refused.type_id(), refused.slot()), (Some(0), Some(0)));
/// # Ok::<(), flatc::Error>(())
/// ```
#[derive(Clone, PartialEq, Eq)]
pub struct Refused {
    fault: flatc_fault,
    options: flatc_options,
}

impl Refused {
    /// The fault's number. No other fault has it, in any version of the library.
    ///
    /// ```
    /// let error = flatc::Schema::new("table T { a:[[int]]; }").unwrap_err();
    /// assert_eq!(error.refused().unwrap().number(), 6);
    /// ```
    pub fn number(&self) -> u8 {
        self.fault.number
    }

    /// The kind of fault, to match on; none for a number that only a later version of the library has.
    ///
    /// ```
    /// use flatc::{FaultKind, Schema};
    ///
    /// let error = Schema::new("table T { a:[[int]]; }").unwrap_err();
    /// assert_eq!(error.refused().unwrap().kind(), Some(FaultKind::NestedVector));
    /// ```
    pub fn kind(&self) -> Option<FaultKind> {
        FaultKind::from_number(self.fault.number)
    }

    /// The fault's name. Faults of JSON and of buffers may have the same name.
    ///
    /// ```
    /// let error = flatc::Schema::new("table T { a:[[int]]; }").unwrap_err();
    /// assert_eq!(error.refused().unwrap().name(), "NestedVector");
    /// ```
    pub fn name(&self) -> &str {
        let name = self.fault.name.split(|&byte| byte == 0).next();
        std::str::from_utf8(name.unwrap_or_default()).unwrap_or_default()
    }

    /// Where the fault is, in bytes from the start of the schema text or the buffer.
    ///
    /// ```
    /// let error = flatc::Schema::new("table T { a:[[int]]; }").unwrap_err();
    /// assert_eq!(error.refused().unwrap().offset(), Some(13));
    /// ```
    pub fn offset(&self) -> Option<u64> {
        self.fault.has_offset.then_some(self.fault.offset)
    }

    /// The number of the declared type that the fault is in, from 0.
    ///
    /// ```
    /// let schema = flatc::Schema::new("table Monster { hp:short; } root_type Monster;")?;
    /// let error = schema.encode(r#"{"hp": 70000}"#).unwrap_err();
    /// assert_eq!(error.refused().unwrap().type_id(), Some(0));
    /// # Ok::<(), flatc::Error>(())
    /// ```
    pub fn type_id(&self) -> Option<u64> {
        self.fault.has_type.then_some(self.fault.type_id)
    }

    /// The slot in that type.
    ///
    /// ```
    /// let schema = flatc::Schema::new("table Monster { name:string; hp:short; } root_type Monster;")?;
    /// let error = schema.encode(r#"{"hp": 70000}"#).unwrap_err();
    /// assert_eq!(error.refused().unwrap().slot(), Some(1));
    /// # Ok::<(), flatc::Error>(())
    /// ```
    pub fn slot(&self) -> Option<u16> {
        self.fault.has_slot.then_some(self.fault.slot)
    }

    /// The fault's sentence, which says what is wrong and where, in one line. `Display` prints the same.
    ///
    /// ```
    /// let schema = flatc::Schema::new("table Monster { name:string; hp:short; } root_type Monster;")?;
    /// let error = schema.encode(r#"{"hp": 70000}"#).unwrap_err();
    /// assert!(error.refused().unwrap().message().contains("slot 1"));
    /// # Ok::<(), flatc::Error>(())
    /// ```
    pub fn message(&self) -> String {
        self.to_string()
    }

    /// A human-readable explanation, as `flatc --explain` prints it: lines of at most 120 columns, each ended by a line
    /// feed, without control characters.
    ///
    /// `schema` is the schema's text; of [`conform`](crate::Schema::conform), the old one. `input` is the JSON text,
    /// the buffer or the new schema's text; of [`Schema::new`](crate::Schema::new), nothing (`""`). Both are read
    /// again, which takes as long as one or two calls.
    ///
    /// # Errors
    ///
    /// [`Error::OutOfMemory`].
    ///
    /// ```
    /// let text = "table Monster { hp:short; } root_type Monster;";
    /// let json = r#"{"hp": 70000}"#;
    /// let error = flatc::Schema::new(text)?.encode(json).unwrap_err();
    /// let lines = error.refused().unwrap().explain(text, json)?;
    /// assert!(lines.starts_with("JSON:1:"));
    /// assert!(lines.contains("70000"));
    /// # Ok::<(), flatc::Error>(())
    /// ```
    pub fn explain(&self, schema: impl AsRef<[u8]>, input: impl AsRef<[u8]>) -> Result<String, Error> {
        let (schema, input, mut lines) = (schema.as_ref(), input.as_ref(), Bytes::empty());
        // SAFETY: flatc.h: the inputs are borrowed during the call and no part of the new `out`, which is in this call
        // alone, and fault and options are valid structs.
        let status = unsafe {
            sys::flatc_explain(
                &self.fault,
                schema.as_ptr().cast(),
                schema.len(),
                input.as_ptr().cast(),
                input.len(),
                &self.options,
                lines.as_out(),
            )
        };
        check(status, &self.fault, &self.options)?;
        Ok(String::from_utf8_lossy(&lines).into_owned())
    }
}

impl fmt::Display for Refused {
    fn fmt(&self, f: &mut fmt::Formatter<'_>) -> fmt::Result {
        let mut message = Bytes::empty();
        // SAFETY: flatc.h: a valid fault, and a handle of zeros that is in this call alone.
        let status = unsafe { sys::flatc_fault_message(&self.fault, message.as_out()) };
        match status {
            sys::FLATC_OK => f.write_str(&String::from_utf8_lossy(&message)),
            // Memory for the sentence ran out.
            _ => write!(f, "{} {}", self.number(), self.name()),
        }
    }
}

impl fmt::Debug for Refused {
    fn fmt(&self, f: &mut fmt::Formatter<'_>) -> fmt::Result {
        f.debug_struct("Refused")
            .field("number", &self.number())
            .field("name", &self.name())
            .field("offset", &self.offset())
            .field("type_id", &self.type_id())
            .field("slot", &self.slot())
            .finish_non_exhaustive()
    }
}

impl std::error::Error for Refused {}

/// The result of a call that returned this status.
pub(crate) fn check(status: flatc_status, fault: &flatc_fault, options: &flatc_options) -> Result<(), Error> {
    match status {
        sys::FLATC_OK => Ok(()),
        sys::FLATC_REFUSED => Err(Error::Refused(Refused {
            fault: *fault,
            options: *options,
        })),
        sys::FLATC_NO_MEMORY => Err(Error::OutOfMemory),
        sys::FLATC_BAD_OPTIONS => Err(Error::BadOptions),
        other => Err(Error::UnknownStatus(other)),
    }
}
