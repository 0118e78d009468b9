//! Streams of size-prefixed buffers.
use flatc::{messages, DecodeOptions, EncodeOptions, Schema};

const TEXT: &str = "table Monster { name:string; hp:long; } root_type Monster;";
const LINES: [&str; 3] = [r#"{"name":"Orc"}"#, r#"{"name":"Elf","hp":9}"#, "{}"];

fn stream(schema: &Schema) -> Vec<u8> {
    let prefixed = EncodeOptions::new().size_prefixed(true);
    LINES
        .iter()
        .flat_map(|line| schema.encode_with(line, &prefixed).unwrap().to_vec())
        .collect()
}

#[test]
fn each_line_comes_back() {
    let schema = Schema::new(TEXT).unwrap();
    let options = DecodeOptions::new().size_prefixed(true).compact(true);
    let stream = stream(&schema);
    let texts: Vec<String> = messages(&stream)
        .map(|message| schema.decode_with(message.unwrap(), &options).unwrap().into())
        .collect();
    assert_eq!(texts, LINES);
}

#[test]
fn a_stream_that_is_cut() {
    let stream = stream(&Schema::new(TEXT).unwrap());
    let mut ends = vec![0];
    for message in messages(&stream) {
        ends.push(ends.last().unwrap() + message.unwrap().len());
    }
    assert_eq!(ends.last(), Some(&stream.len()));
    for cut in 0..stream.len() {
        let whole = ends.iter().filter(|&&end| end <= cut).count() - 1;
        let mut found = messages(&stream[..cut]);
        assert_eq!(found.by_ref().take(whole).filter(Result::is_ok).count(), whole);
        assert_eq!(found.rest(), &stream[ends[whole]..cut]);
        match found.next() {
            None => assert_eq!(cut, ends[whole]),
            Some(last) => assert_eq!(last.unwrap_err().offset(), ends[whole]),
        }
        assert_eq!(found.next(), None);
    }
}

#[test]
fn lengths_at_the_limits() {
    assert_eq!(messages(&[]).next(), None);
    for cut in [&[0][..], &[0, 0, 0], &[1, 0, 0, 0], &[255, 255, 255, 255, 0]] {
        assert_eq!(messages(cut).next().unwrap().unwrap_err().offset(), 0);
    }
    let empty = [0; 8];
    assert_eq!(messages(&empty).map(|it| it.unwrap().len()).collect::<Vec<_>>(), [4, 4]);
}
