//! The declarations are those of flatc.h: as text, and by the sizes and offsets that a C compiler finds.
use flatc_sys::*;
use std::mem::size_of_val;
use std::path::PathBuf;
use std::process::Command;
use std::{env, fs};

const SOURCE: &str = include_str!("../src/lib.rs");

/// The folder with flatc.h. A copy of the crate outside of the repository has none.
fn include() -> Option<PathBuf> {
    let folder = PathBuf::from(env!("CARGO_MANIFEST_DIR")).join("../../../include");
    let found = folder.join("flatc.h").exists();
    if !found {
        eprintln!("skipped: flatc.h isn't in {}", folder.display());
    }
    found.then_some(folder)
}

/// The header without comments and lines of the preprocessor.
fn header(include: PathBuf) -> String {
    let mut text = fs::read_to_string(include.join("flatc.h")).unwrap();
    while let Some(start) = text.find("/*") {
        let end = start + text[start..].find("*/").unwrap() + 2;
        text.replace_range(start..end, "");
    }
    let lines = text.lines().filter(|line| !line.starts_with('#'));
    lines.collect::<Vec<_>>().join(" ")
}

fn without_blanks(text: &str) -> String {
    text.split_whitespace().collect::<String>().replace(",)", ")")
}

/// The source without comments, attributes and blanks.
fn source() -> String {
    let is_code = |line: &&str| !line.trim_start().starts_with("//") && !line.trim_start().starts_with('#');
    without_blanks(&SOURCE.lines().filter(is_code).collect::<Vec<_>>().join("\n"))
}

/// What Rust writes for a C type.
fn type_of(c: &str) -> String {
    let c = c.trim();
    if let Some(target) = c.strip_suffix('*') {
        return match target.trim().strip_prefix("const ") {
            Some(target) => format!("*const {}", type_of(target)),
            None => format!("*mut {}", type_of(target)),
        };
    }
    let name = match c {
        "void" => "c_void",
        "size_t" => "usize",
        "uint8_t" | "char" => "u8",
        "uint16_t" => "u16",
        "uint32_t" => "u32",
        "uint64_t" => "u64",
        _ => c,
    };
    name.to_string()
}

/// A parameter or a field of C, as Rust writes it.
fn declaration(c: &str) -> String {
    let start = c.rfind([' ', '*']).unwrap() + 1;
    let (kind, name) = (type_of(&c[..start]), &c[start..]);
    match name.strip_suffix(']').and_then(|it| it.split_once('[')) {
        Some((name, count)) => format!("{name}: [{kind}; {count}]"),
        None => format!("{name}: {kind}"),
    }
}

/// The fields that the header has in a struct.
fn fields<'a>(header: &'a str, name: &str) -> Vec<&'a str> {
    let start = header.find(&format!("typedef struct {name} {{")).unwrap();
    let (start, end) = (
        header[start..].find('{').unwrap() + start + 1,
        header[start..].find('}').unwrap() + start,
    );
    header[start..end]
        .split(';')
        .map(str::trim)
        .filter(|it| !it.is_empty())
        .collect()
}

#[test]
fn each_call_is_declared() {
    let Some(include) = include() else { return };
    let (header, source) = (header(include), source());
    let calls: Vec<&str> = header
        .split([';', '{', '}'])
        .map(str::trim)
        .filter(|it| it.ends_with(')') && it.contains(" flatc_"))
        .collect();
    for call in &calls {
        let (head, parameters) = call.trim_end_matches(')').split_once('(').unwrap();
        let (result, name) = head.split_once(' ').unwrap();
        let parameters: Vec<String> = match parameters {
            "void" => vec![],
            _ => parameters.split(',').map(declaration).collect(),
        };
        let result = match result {
            "void" => String::new(),
            _ => format!("-> {}", type_of(result)),
        };
        let wanted = format!("pub fn {name}({}) {result};", parameters.join(", "));
        assert!(source.contains(&without_blanks(&wanted)), "{wanted}");
    }
    assert_eq!(source.matches("pubfnflatc_").count(), calls.len());
    assert!(calls.len() > 10, "{calls:?}");
}

#[test]
fn each_field_is_declared() {
    let Some(include) = include() else { return };
    let (header, source) = (header(include), source());
    for name in [
        "flatc_schema",
        "flatc_bytes",
        "flatc_fault",
        "flatc_options",
        "flatc_name",
    ] {
        let fields: Vec<String> = fields(&header, name)
            .into_iter()
            .map(|it| format!("pub {},", declaration(it)))
            .collect();
        let wanted = format!("pub struct {name} {{ {} }}", fields.join(" "));
        assert!(source.contains(&without_blanks(&wanted)), "{wanted}");
    }
    assert_eq!(header.matches("typedef struct").count(), 5);
}

/// A line for a value's size and for the offset and size of each of its fields, and the C program that prints them.
macro_rules! layout {
    ($value:expr, $type:ident: $($field:ident)*) => {{
        let value = $value;
        let start = &value as *const $type as usize;
        let name = stringify!($type);
        let mut lines = format!("{name} {} {}\n", size_of_val(&value), std::mem::align_of::<$type>());
        let mut c = format!("printf(\"{name} %zu %zu\\n\", sizeof({name}), _Alignof({name}));\n");
        $(
            let (field, at) = (stringify!($field), &value.$field as *const _ as usize - start);
            lines += &format!("{name}.{field} {at} {}\n", size_of_val(&value.$field));
            c += &format!("printf(\"{name}.{field} %zu %zu\\n\", offsetof({name}, {field}), ");
            c += &format!("sizeof((({name} *)0)->{field}));\n");
        )*
        (lines, c)
    }};
}

/// A line for each constant, and the C program that prints them.
macro_rules! constants {
    ($($name:ident)*) => {{
        let (mut lines, mut c) = (String::new(), String::new());
        $(
            lines += &format!("{} {}\n", stringify!($name), $name);
            c += &format!("printf(\"{0} %u\\n\", {0});\n", stringify!($name));
        )*
        (lines, c)
    }};
}

#[test]
fn sizes_and_offsets_are_those_of_c() {
    let Some(include) = include() else { return };
    let options = FLATC_OPTIONS_INIT;
    let defaults = format!(
        "defaults {} {} {} {} {} {} {} {}\n",
        options.size,
        options.max_cells,
        options.max_depth,
        options.unknown_json as u8,
        options.raw_binary as u8,
        options.defaults_json as u8,
        options.size_prefixed as u8,
        options.compact as u8,
    );
    let c_defaults = "flatc_options o = FLATC_OPTIONS_INIT;\n\
        printf(\"defaults %u %u %u %u %u %u %u %u\\n\", o.size, o.max_cells, o.max_depth, o.unknown_json, \
        o.raw_binary, o.defaults_json, o.size_prefixed, o.compact);\n";
    let parts = [
        layout!(FLATC_SCHEMA_INIT, flatc_schema: held full),
        layout!(FLATC_BYTES_INIT, flatc_bytes: data size held full),
        layout!(
            FLATC_FAULT_INIT,
            flatc_fault: offset type_id slot number has_offset has_type has_slot reserved name
        ),
        layout!(
            FLATC_OPTIONS_INIT,
            flatc_options: size max_cells max_depth unknown_json raw_binary defaults_json size_prefixed compact reserved
        ),
        layout!(flatc_name { text: [0; 32] }, flatc_name: text),
        constants!(FLATC_OK FLATC_REFUSED FLATC_NO_MEMORY FLATC_NO_SCHEMA FLATC_BAD_OPTIONS FLATC_NO_FAULT),
        (defaults, c_defaults.to_string()),
    ];
    let (lines, statements): (Vec<String>, Vec<String>) = parts.into_iter().unzip();
    let program = format!(
        "#include <flatc.h>\n#include <stdio.h>\nint main(void) {{\n{}return 0;\n}}\n",
        statements.concat()
    );
    let folder = PathBuf::from(env!("CARGO_TARGET_TMPDIR"));
    let (file, built) = (folder.join("layout.c"), folder.join("layout"));
    fs::write(&file, program).unwrap();
    let compiler = env::var("CC").unwrap_or_else(|_| "cc".to_string());
    let mut words = compiler.split_whitespace();
    let mut command = Command::new(words.next().unwrap_or("cc"));
    command
        .args(words)
        .arg("-std=c11")
        .arg("-I")
        .arg(include)
        .arg(file)
        .arg("-o")
        .arg(&built);
    match command.output() {
        Err(error) => eprintln!("skipped: {compiler}: {error}"),
        Ok(done) => {
            assert!(done.status.success(), "{}", String::from_utf8_lossy(&done.stderr));
            let printed = Command::new(built).output().unwrap().stdout;
            assert_eq!(String::from_utf8(printed).unwrap(), lines.concat());
        }
    }
}

#[test]
fn the_library_has_the_version_of_the_crate() {
    let part = |text: &str| text.parse::<u32>().unwrap();
    let (major, minor) = (
        part(env!("CARGO_PKG_VERSION_MAJOR")),
        part(env!("CARGO_PKG_VERSION_MINOR")),
    );
    // SAFETY: the call has no conditions.
    let version = unsafe { flatc_version() };
    assert_eq!(version >> 8, major * 256 + minor);
}
