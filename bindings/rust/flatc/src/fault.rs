//! The kinds of faults.

/// Makes the enum and its tables of rows `Variant = number, "name";`.
macro_rules! fault_kinds {
    ($(#[$about:meta])* { $($(#[$doc:meta])* $variant:ident = $number:literal, $name:literal;)* }) => {
        $(#[$about])*
        #[derive(Clone, Copy, Debug, PartialEq, Eq, Hash, PartialOrd, Ord)]
        #[non_exhaustive]
        #[repr(u8)]
        pub enum FaultKind {
            $($(#[$doc])* $variant = $number,)*
        }

        impl FaultKind {
            /// The kind with this number, if there is one.
            ///
            /// ```
            /// use flatc::FaultKind;
            ///
            /// assert_eq!(FaultKind::from_number(72), Some(FaultKind::OutOfRange));
            /// assert_eq!(FaultKind::from_number(0), None);
            /// ```
            pub const fn from_number(number: u8) -> Option<FaultKind> {
                match number {
                    $($number => Some(FaultKind::$variant),)*
                    _ => None,
                }
            }

            /// The fault's name as the library and `flatc` print it. It isn't unique, unlike the number.
            ///
            /// ```
            /// use flatc::FaultKind;
            ///
            /// assert_eq!(FaultKind::JsonTooDeep.name(), "TooDeep");
            /// assert_eq!(FaultKind::BufferTooDeep.name(), "TooDeep");
            /// ```
            pub const fn name(self) -> &'static str {
                match self {
                    $(FaultKind::$variant => $name,)*
                }
            }
        }
    };
}

fault_kinds! {
    /// Why an input is refused: the broken rule.
    ///
    /// A kind has the fault's name, after `Json` or `Buffer` where both have a fault of that name. Memory that ran out
    /// is no kind, but [`Error::OutOfMemory`](crate::Error::OutOfMemory). `flatc explain NUMBER` prints an example of a
    /// fault and what to do.
    ///
    /// ```
    /// use flatc::{FaultKind, Schema};
    ///
    /// let schema = Schema::new("table Monster { name:string (required); } root_type Monster;")?;
    /// match schema.encode("{}").unwrap_err().kind() {
    ///     Some(FaultKind::JsonMissingRequired) => println!("a field is missing"),
    ///     Some(FaultKind::BadJson) => println!("no JSON"),
    ///     other => panic!("{other:?}"),
    /// }
    /// # Ok::<(), flatc::Error>(())
    /// ```
    {
        // Schema texts: tokens and grammar
        /// The schema text isn't UTF-8.
        NotUtf8 = 1, "NotUtf8";
        /// No token begins with this byte, or it may not be in a quoted text.
        BadByte = 2, "BadByte";
        /// A comment or a quoted text has no end.
        Unterminated = 3, "Unterminated";
        /// An integer doesn't fit in 64 bits.
        NumberTooBig = 4, "NumberTooBig";
        /// A token isn't expected where it is.
        Unexpected = 5, "Unexpected";
        /// A vector's elements are vectors.
        NestedVector = 6, "NestedVector";
        // Schema texts: declarations
        /// A name is declared twice in one place, or may not be taken.
        DuplicateName = 10, "DuplicateName";
        /// No type has this name, seen from its namespace.
        UnknownType = 11, "UnknownType";
        /// A default isn't one that its field can have.
        BadDefault = 12, "BadDefault";
        /// The `id` attributes of a table aren't 0, 1, 2 and so on, one on each field.
        BadIds = 13, "BadIds";
        /// A struct has a field of a struct that isn't declared before it.
        IncompleteStruct = 14, "IncompleteStruct";
        /// A struct has no field.
        EmptyStruct = 15, "EmptyStruct";
        /// An attribute may not be here, is repeated, or has a wrong value.
        BadAttribute = 16, "BadAttribute";
        /// An attribute is neither built in nor declared.
        UnknownAttribute = 17, "UnknownAttribute";
        /// Something of FlatBuffers' schema language isn't supported.
        Unsupported = 18, "Unsupported";
        /// An enum's value is outside its type, or has the number of another.
        BadEnumValue = 19, "BadEnumValue";
        /// A type can't be a union's member or a struct's field.
        BadMember = 20, "BadMember";
        /// The root isn't a table, or the text names none.
        BadRoot = 21, "BadRoot";
        /// A file identifier doesn't have four printable ASCII characters.
        BadIdentifier = 22, "BadIdentifier";
        // Schema texts: sizes
        /// A struct takes more than 65,535 bytes.
        StructTooBig = 30, "StructTooBig";
        /// A table's fields take more than 65,535 bytes together, or more than 32,765 slots.
        TableTooWide = 31, "TableTooWide";
        // Building a buffer
        /// The buffer would be longer than 2,147,483,647 bytes.
        TooBig = 40, "TooBig";
        // Buffers
        /// The buffer is too short for its header: 4 bytes, or 8 with a file identifier.
        Short = 50, "Short";
        /// The buffer is longer than 2,147,483,647 bytes.
        TooLong = 51, "TooLong";
        /// The file identifier isn't the schema's.
        WrongIdentifier = 52, "WrongIdentifier";
        /// A value isn't at a multiple of its alignment.
        Misaligned = 53, "Misaligned";
        /// A value ends past the buffer.
        OutOfBounds = 54, "OutOfBounds";
        /// An offset to a table, string or vector is 0.
        ZeroOffset = 55, "ZeroOffset";
        /// A table's vtable isn't inside the buffer, or its size is odd or below 4.
        BadVtable = 56, "BadVtable";
        /// A required field of a table is absent.
        BufferMissingRequired = 57, "MissingRequired";
        /// A string isn't followed by a zero byte.
        NoTerminator = 58, "NoTerminator";
        /// A string isn't UTF-8.
        BadUtf8 = 59, "BadUtf8";
        /// A union has a type and no value.
        BufferUnionMismatch = 60, "UnionMismatch";
        /// Tables are nested deeper than `max_depth`.
        BufferTooDeep = 62, "TooDeep";
        /// A buffer has more cells than `max_cells`. What is reached twice counts twice.
        BufferTooManyCells = 63, "TooManyCells";
        // JSON under a schema
        /// A JSON value is of another kind than the field.
        WrongShape = 70, "WrongShape";
        /// A number isn't written as a whole number of at most 64 bits.
        NotWhole = 71, "NotWhole";
        /// A number isn't one of its type's.
        OutOfRange = 72, "OutOfRange";
        /// An enum has no value, or a union no member, of this name.
        UnknownName = 73, "UnknownName";
        /// No field of the table or struct has this name.
        UnknownMember = 74, "UnknownMember";
        /// A field of a struct isn't there.
        MissingMember = 75, "MissingMember";
        /// A required field isn't there, or is null.
        JsonMissingRequired = 76, "MissingRequired";
        /// A union has a value without a type, or a type without a value.
        JsonUnionMismatch = 77, "UnionMismatch";
        /// Tables are nested deeper than `max_depth`.
        JsonTooDeep = 78, "TooDeep";
        /// The text has more cells than `max_cells`.
        JsonTooManyCells = 79, "TooManyCells";
        // Printing JSON
        /// A union in the buffer has a type that the schema has no member for, so it has no JSON.
        NoMemberName = 81, "NoMemberName";
        // Comparing schemas
        /// The root is a table of another name.
        RootChanged = 90, "RootChanged";
        /// The file identifier was added, removed or changed.
        IdentifierChanged = 91, "IdentifierChanged";
        /// A type of the old schema is gone.
        TypeGone = 92, "TypeGone";
        /// A type was a table, struct, enum or union, and is another of these.
        KindChanged = 93, "KindChanged";
        /// A struct's fields have other types, or its alignment changed.
        StructChanged = 94, "StructChanged";
        /// A table has fewer slots than before.
        SlotGone = 95, "SlotGone";
        /// A field has another type.
        FieldTypeChanged = 96, "FieldTypeChanged";
        /// A field has another default.
        DefaultChanged = 97, "DefaultChanged";
        /// A field was required and isn't, or the other way round.
        RequiredChanged = 98, "RequiredChanged";
        /// A field was deprecated and isn't any more.
        DeprecatedTakenBack = 99, "DeprecatedTakenBack";
        /// A new field is required, which old buffers don't have.
        NewRequired = 100, "NewRequired";
        /// An enum has another type or mark, or an old value is gone or has another number.
        EnumChanged = 101, "EnumChanged";
        /// A union's member is gone, or its number names another table.
        UnionChanged = 102, "UnionChanged";
        // Files and JSON texts
        /// The text isn't JSON as RFC 8259 has it, is nested deeper than 127 levels, or isn't UTF-8.
        BadJson = 113, "BadJson";
    }
}

impl FaultKind {
    /// The fault's number, which no other fault has in any version.
    ///
    /// ```
    /// assert_eq!(flatc::FaultKind::OutOfRange.number(), 72);
    /// ```
    pub const fn number(self) -> u8 {
        self as u8
    }
}
