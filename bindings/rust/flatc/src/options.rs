//! How messages are converted.
use flatc_sys::{flatc_options, FLATC_OPTIONS_INIT};

/// How JSON is converted to a buffer. Each setter returns the changed options.
///
/// ```
/// use flatc::EncodeOptions;
///
/// const OPTIONS: EncodeOptions = EncodeOptions::new().max_depth(16).unknown_json(true);
/// assert_ne!(OPTIONS, EncodeOptions::default());
/// ```
#[derive(Clone, Copy, Debug, PartialEq, Eq, Hash)]
#[must_use = "a setter returns the changed options"]
pub struct EncodeOptions {
    max_cells: u32,
    max_depth: u8,
    unknown_json: bool,
    size_prefixed: bool,
}

impl Default for EncodeOptions {
    fn default() -> EncodeOptions {
        EncodeOptions::new()
    }
}

impl EncodeOptions {
    /// The defaults: 100,000,000 cells, a depth of 64, and every flag off.
    ///
    /// ```
    /// # use flatc::EncodeOptions;
    /// assert_eq!(EncodeOptions::new(), EncodeOptions::new().max_depth(64).max_cells(100_000_000));
    /// ```
    pub const fn new() -> EncodeOptions {
        EncodeOptions {
            max_cells: FLATC_OPTIONS_INIT.max_cells,
            max_depth: FLATC_OPTIONS_INIT.max_depth,
            unknown_json: false,
            size_prefixed: false,
        }
    }

    /// The maximum number of cells. Each table, vector and string counts one, and so does each byte of a string and
    /// each element of a vector.
    ///
    /// ```
    /// # use flatc::{EncodeOptions, FaultKind, Schema};
    /// let schema = Schema::new("table Monster { name:string; } root_type Monster;")?;
    /// let few = EncodeOptions::new().max_cells(4);
    /// let error = schema.encode_with(r#"{"name": "Orc"}"#, &few).unwrap_err();
    /// assert_eq!(error.kind(), Some(FaultKind::JsonTooManyCells));
    /// # Ok::<(), flatc::Error>(())
    /// ```
    pub const fn max_cells(mut self, cells: u32) -> EncodeOptions {
        self.max_cells = cells;
        self
    }

    /// How deep tables may be nested, 1 to 127. With another depth the call returns
    /// [`Error::BadOptions`](crate::Error::BadOptions).
    ///
    /// ```
    /// # use flatc::{EncodeOptions, FaultKind, Schema};
    /// let schema = Schema::new("table Tree { left:Tree; } root_type Tree;")?;
    /// let flat = EncodeOptions::new().max_depth(1);
    /// let error = schema.encode_with(r#"{"left": {}}"#, &flat).unwrap_err();
    /// assert_eq!(error.kind(), Some(FaultKind::JsonTooDeep));
    /// # Ok::<(), flatc::Error>(())
    /// ```
    pub const fn max_depth(mut self, depth: u8) -> EncodeOptions {
        self.max_depth = depth;
        self
    }

    /// Ignores unknown JSON fields.
    ///
    /// ```
    /// # use flatc::{EncodeOptions, Schema};
    /// let schema = Schema::new("table Monster { name:string; } root_type Monster;")?;
    /// let lenient = EncodeOptions::new().unknown_json(true);
    /// schema.encode_with(r#"{"hair": "green"}"#, &lenient)?;
    /// # Ok::<(), flatc::Error>(())
    /// ```
    pub const fn unknown_json(mut self, ignores: bool) -> EncodeOptions {
        self.unknown_json = ignores;
        self
    }

    /// The buffer begins with its length, as 32 bits.
    ///
    /// ```
    /// # use flatc::{EncodeOptions, Schema};
    /// let schema = Schema::new("table Monster { name:string; } root_type Monster;")?;
    /// let prefixed = EncodeOptions::new().size_prefixed(true);
    /// let buffer = schema.encode_with(r#"{"name": "Orc"}"#, &prefixed)?;
    /// assert_eq!(u32::from_le_bytes(buffer[..4].try_into().unwrap()) as usize, buffer.len() - 4);
    /// # Ok::<(), flatc::Error>(())
    /// ```
    pub const fn size_prefixed(mut self, prefixed: bool) -> EncodeOptions {
        self.size_prefixed = prefixed;
        self
    }

    pub(crate) const fn raw(&self) -> flatc_options {
        flatc_options {
            max_cells: self.max_cells,
            max_depth: self.max_depth,
            unknown_json: self.unknown_json,
            size_prefixed: self.size_prefixed,
            ..FLATC_OPTIONS_INIT
        }
    }
}

/// How a buffer is verified and converted to JSON. Each setter returns the changed options.
///
/// ```
/// use flatc::DecodeOptions;
///
/// const OPTIONS: DecodeOptions = DecodeOptions::new().compact(true).defaults_json(true);
/// assert_ne!(OPTIONS, DecodeOptions::default());
/// ```
#[derive(Clone, Copy, Debug, PartialEq, Eq, Hash)]
#[must_use = "a setter returns the changed options"]
pub struct DecodeOptions {
    max_cells: u32,
    max_depth: u8,
    raw_binary: bool,
    defaults_json: bool,
    size_prefixed: bool,
    compact: bool,
}

impl Default for DecodeOptions {
    fn default() -> DecodeOptions {
        DecodeOptions::new()
    }
}

impl DecodeOptions {
    /// The defaults: 100,000,000 cells, a depth of 64, and every flag off.
    ///
    /// ```
    /// # use flatc::DecodeOptions;
    /// assert_eq!(DecodeOptions::new(), DecodeOptions::new().max_depth(64).max_cells(100_000_000));
    /// ```
    pub const fn new() -> DecodeOptions {
        DecodeOptions {
            max_cells: FLATC_OPTIONS_INIT.max_cells,
            max_depth: FLATC_OPTIONS_INIT.max_depth,
            raw_binary: false,
            defaults_json: false,
            size_prefixed: false,
            compact: false,
        }
    }

    /// The maximum number of cells. Each table, vector and string counts one, and so does each byte of a string and
    /// each element of a vector.
    ///
    /// ```
    /// # use flatc::{DecodeOptions, FaultKind, Schema};
    /// let schema = Schema::new("table Monster { name:string; } root_type Monster;")?;
    /// let buffer = schema.encode(r#"{"name": "Orc"}"#)?;
    /// let error = schema.verify_with(&buffer, &DecodeOptions::new().max_cells(4)).unwrap_err();
    /// assert_eq!(error.kind(), Some(FaultKind::BufferTooManyCells));
    /// # Ok::<(), flatc::Error>(())
    /// ```
    pub const fn max_cells(mut self, cells: u32) -> DecodeOptions {
        self.max_cells = cells;
        self
    }

    /// How deep tables may be nested, 1 to 127. With another depth the call returns
    /// [`Error::BadOptions`](crate::Error::BadOptions).
    ///
    /// ```
    /// # use flatc::{DecodeOptions, FaultKind, Schema};
    /// let schema = Schema::new("table Tree { left:Tree; } root_type Tree;")?;
    /// let buffer = schema.encode(r#"{"left": {}}"#)?;
    /// let error = schema.verify_with(&buffer, &DecodeOptions::new().max_depth(1)).unwrap_err();
    /// assert_eq!(error.kind(), Some(FaultKind::BufferTooDeep));
    /// # Ok::<(), flatc::Error>(())
    /// ```
    pub const fn max_depth(mut self, depth: u8) -> DecodeOptions {
        self.max_depth = depth;
        self
    }

    /// Skips the file identifier check.
    ///
    /// ```
    /// # use flatc::{DecodeOptions, FaultKind, Schema};
    /// let text = "table Monster { name:string; } root_type Monster;";
    /// let buffer = Schema::new(text)?.encode(r#"{"name": "Orc"}"#)?;
    /// let schema = Schema::new(format!("{text} file_identifier \"MONS\";"))?;
    /// assert_eq!(schema.verify(&buffer).unwrap_err().kind(), Some(FaultKind::WrongIdentifier));
    /// schema.verify_with(&buffer, &DecodeOptions::new().raw_binary(true))?;
    /// # Ok::<(), flatc::Error>(())
    /// ```
    pub const fn raw_binary(mut self, skips: bool) -> DecodeOptions {
        self.raw_binary = skips;
        self
    }

    /// Includes fields with default values.
    ///
    /// ```
    /// # use flatc::{DecodeOptions, Schema};
    /// let schema = Schema::new("table Monster { hp:short = 100; } root_type Monster;")?;
    /// let options = DecodeOptions::new().defaults_json(true);
    /// assert_eq!(schema.decode_with(schema.encode("{}")?, &options)?, "{\n  \"hp\": 100\n}\n");
    /// # Ok::<(), flatc::Error>(())
    /// ```
    pub const fn defaults_json(mut self, includes: bool) -> DecodeOptions {
        self.defaults_json = includes;
        self
    }

    /// The buffer begins with its length, as 32 bits.
    ///
    /// ```
    /// # use flatc::{DecodeOptions, EncodeOptions, Schema};
    /// let schema = Schema::new("table Monster { name:string; } root_type Monster;")?;
    /// let prefixed = EncodeOptions::new().size_prefixed(true);
    /// let buffer = schema.encode_with(r#"{"name": "Orc"}"#, &prefixed)?;
    /// schema.decode_with(&buffer, &DecodeOptions::new().size_prefixed(true))?;
    /// # Ok::<(), flatc::Error>(())
    /// ```
    pub const fn size_prefixed(mut self, prefixed: bool) -> DecodeOptions {
        self.size_prefixed = prefixed;
        self
    }

    /// No blanks and line feeds outside strings.
    ///
    /// ```
    /// # use flatc::{DecodeOptions, Schema};
    /// let schema = Schema::new("table Monster { name:string; } root_type Monster;")?;
    /// let buffer = schema.encode(r#"{"name": "Orc"}"#)?;
    /// let text = schema.decode_with(&buffer, &DecodeOptions::new().compact(true))?;
    /// assert_eq!(text, r#"{"name":"Orc"}"#);
    /// # Ok::<(), flatc::Error>(())
    /// ```
    pub const fn compact(mut self, compact: bool) -> DecodeOptions {
        self.compact = compact;
        self
    }

    pub(crate) const fn raw(&self) -> flatc_options {
        flatc_options {
            max_cells: self.max_cells,
            max_depth: self.max_depth,
            raw_binary: self.raw_binary,
            defaults_json: self.defaults_json,
            size_prefixed: self.size_prefixed,
            compact: self.compact,
            ..FLATC_OPTIONS_INIT
        }
    }
}
