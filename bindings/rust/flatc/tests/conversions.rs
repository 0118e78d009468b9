//! Messages there and back, refusals, options, and what types promise.
use flatc::{Bytes, DecodeOptions, EncodeOptions, Error, FaultKind, Refused, Schema, Text};

const TEXT: &str = include_str!("../../../../examples/monster.fbs");
const JSON: &str = include_str!("../../../../examples/monster.json");

fn refused<T>(result: Result<T, Error>) -> Refused {
    match result {
        Err(Error::Refused(refused)) => refused,
        Err(other) => panic!("{other}"),
        Ok(_) => panic!("not refused"),
    }
}

#[test]
fn a_monster_there_and_back() {
    let schema = Schema::new(TEXT).unwrap();
    let buffer = schema.encode(JSON).unwrap();
    assert_eq!(&buffer[4..8], b"MONS");
    schema.verify(&buffer).unwrap();
    let text = schema.decode(&buffer).unwrap();
    assert_eq!(schema.encode(&text).unwrap(), buffer);
}

#[test]
fn a_json_text_may_be_bytes() {
    let schema = Schema::new(TEXT.as_bytes()).unwrap();
    let buffer = schema.encode(JSON).unwrap();
    assert_eq!(schema.encode(JSON.as_bytes()).unwrap(), buffer);
    assert_eq!(schema.encode(Vec::from(JSON)).unwrap(), buffer);
    assert_eq!(
        refused(schema.encode(b"{\"name\": \"\xff\"}")).kind(),
        Some(FaultKind::BadJson)
    );
}

#[test]
fn a_number_that_is_too_large() {
    let json = r#"{"name": "Orc", "hp": 70000}"#;
    let fault = refused(Schema::new(TEXT).unwrap().encode(json));
    assert_eq!(
        (fault.number(), fault.name(), fault.offset(), fault.slot()),
        (72, "OutOfRange", None, Some(2))
    );
    assert_eq!(fault.kind(), Some(FaultKind::OutOfRange));
    assert!(fault.message().contains("slot 2"), "{fault}");
    assert_eq!(fault.message(), Error::from(fault.clone()).to_string());
    let lines = fault.explain(TEXT, json).unwrap();
    assert!(lines.starts_with("JSON:1:") && lines.contains("70000"), "{lines}");
}

#[test]
fn a_schema_text() {
    let text = "table T { a:[[int]]; }";
    let fault = refused(Schema::new(text));
    assert_eq!((fault.name(), fault.offset()), ("NestedVector", Some(13)));
    assert_eq!((fault.type_id(), fault.slot()), (None, None));
    let lines = fault.explain(text, "").unwrap();
    assert!(lines.starts_with("schema:1:"), "{lines}");
}

#[test]
fn a_field_of_another_type() {
    let newer = TEXT.replace("hp:short = 100", "hp:int = 100");
    let (old, new) = (Schema::new(TEXT).unwrap(), Schema::new(&newer).unwrap());
    let fault = refused(old.conform(&new));
    assert_eq!((fault.name(), fault.slot()), ("FieldTypeChanged", Some(2)));
    let lines = fault.explain(TEXT, &newer).unwrap();
    assert!(lines.contains("Monster.hp"), "{lines}");
}

#[test]
fn a_schema_conforms_to_itself() {
    let schema = Schema::new(TEXT).unwrap();
    schema.conform(&schema).unwrap();
    schema.conform(&schema.clone()).unwrap();
}

#[test]
fn options_that_are_none() {
    let schema = Schema::new(TEXT).unwrap();
    let buffer = schema.encode(JSON).unwrap();
    for depth in [0, 128, 255] {
        let (encode, decode) = (
            EncodeOptions::new().max_depth(depth),
            DecodeOptions::new().max_depth(depth),
        );
        assert_eq!(schema.encode_with(JSON, &encode), Err(Error::BadOptions));
        assert_eq!(schema.decode_with(&buffer, &decode), Err(Error::BadOptions));
        assert_eq!(schema.verify_with(&buffer, &decode), Err(Error::BadOptions));
    }
    assert!(schema.encode_with(JSON, &EncodeOptions::new().max_depth(127)).is_ok());
}

#[test]
fn options_of_a_refusal_are_those_of_its_explanation() {
    let schema = Schema::new(TEXT).unwrap();
    let limit = EncodeOptions::new().max_cells(5);
    let fault = refused(schema.encode_with(JSON, &limit));
    assert_eq!(fault.kind(), Some(FaultKind::JsonTooManyCells));
    let lines = fault.explain(TEXT, JSON).unwrap();
    assert!(lines.contains('5'), "{lines}");
}

#[test]
fn flags() {
    let schema = Schema::new(TEXT).unwrap();
    let json = r#"{"name": "Orc", "hair": 1}"#;
    assert_eq!(refused(schema.encode(json)).kind(), Some(FaultKind::UnknownMember));
    let buffer = schema
        .encode_with(json, &EncodeOptions::new().unknown_json(true))
        .unwrap();
    let options = DecodeOptions::new();
    let text = |options: DecodeOptions| schema.decode_with(&buffer, &options).unwrap();
    assert_eq!(text(options.compact(true)), r#"{"name":"Orc"}"#);
    assert!(text(options.defaults_json(true)).contains("\"hp\": 100"));

    let prefixed = EncodeOptions::new().size_prefixed(true);
    let message = schema.encode_with(JSON, &prefixed).unwrap();
    assert_eq!(
        u32::from_le_bytes(message[..4].try_into().unwrap()) as usize,
        message.len() - 4
    );
    assert!(schema.decode_with(&message, &options.size_prefixed(true)).is_ok());
    assert!(schema.decode(&message).is_err());

    let mut other = buffer.to_vec();
    other[4..8].copy_from_slice(b"ORCS");
    assert_eq!(refused(schema.verify(&other)).kind(), Some(FaultKind::WrongIdentifier));
    schema.verify_with(&other, &options.raw_binary(true)).unwrap();
}

#[test]
fn nothing_at_all() {
    let schema = Schema::new(TEXT).unwrap();
    assert_eq!(refused(schema.encode("")).kind(), Some(FaultKind::BadJson));
    assert_eq!(refused(schema.verify([])).kind(), Some(FaultKind::Short));
    assert_eq!(refused(schema.decode(Vec::new())).kind(), Some(FaultKind::Short));
    assert_eq!(refused(Schema::new("")).kind(), Some(FaultKind::BadRoot));
}

#[test]
fn refusals_are_compared_and_shown() {
    let schema = Schema::new(TEXT).unwrap();
    let (first, second) = (refused(schema.encode("")), refused(schema.encode("[")));
    assert_eq!(first, first.clone());
    assert_eq!(first.kind(), second.kind());
    let shown = format!("{:?}", Error::from(first));
    assert!(shown.contains("number: 113") && shown.contains("BadJson"), "{shown}");
    assert_eq!(format!("{schema:?}"), "Schema { .. }");
    let source: Box<dyn std::error::Error + Send + Sync> = Error::OutOfMemory.into();
    assert_eq!(source.to_string(), "out of memory");
}

#[test]
fn what_a_call_made_outlives_the_schema() {
    let schema = Schema::new(TEXT).unwrap();
    let buffer = schema.encode(JSON).unwrap();
    let text = schema.decode(&buffer).unwrap();
    let other = schema.clone();
    drop(schema);
    assert_eq!(other.decode(&buffer).unwrap(), text);
    drop(other);
    let (bytes, string) = (Vec::from(buffer), String::from(text));
    assert!(bytes.len() > 100 && string.starts_with('{'));
}

#[test]
fn types_cross_threads() {
    fn crosses<T: Send + Sync + 'static>() {}
    crosses::<Schema>();
    crosses::<Bytes>();
    crosses::<Text>();
    crosses::<Error>();
    crosses::<Refused>();
}
