//! Finds libflatc: in the folder that FLATC_LIB_DIR names, or else by pkg-config.
//!
//! FLATC_STATIC=1 links libflatc.a in place of libflatc.so. PKG_CONFIG names another program than `pkg-config`.
use std::env;
use std::ffi::OsString;
use std::path::PathBuf;
use std::process::{exit, Command};

const PACKAGE: &str = "flatc >= 0.2";
const READ: [&str; 7] = [
    "FLATC_LIB_DIR",
    "FLATC_STATIC",
    "PKG_CONFIG",
    "PKG_CONFIG_PATH",
    "PKG_CONFIG_LIBDIR",
    "PKG_CONFIG_SYSROOT_DIR",
    "DOCS_RS",
];

fn main() {
    println!("cargo:rerun-if-changed=build.rs");
    for name in READ {
        println!("cargo:rerun-if-env-changed={name}");
    }
    if env::var_os("DOCS_RS").is_some() {
        return;
    }
    let is_static = env::var("FLATC_STATIC").is_ok_and(|it| !matches!(it.as_str(), "" | "0"));
    let found = match env::var_os("FLATC_LIB_DIR") {
        Some(folder) => named_folder(folder, is_static).map(|it| vec![it]),
        None => pkg_config_folders(is_static),
    };
    match found {
        Ok(folders) => {
            for folder in folders {
                println!("cargo:rustc-link-search=native={}", folder.display());
            }
            let kind = if is_static { "static" } else { "dylib" };
            println!("cargo:rustc-link-lib={kind}=flatc");
        }
        Err(why) => {
            eprintln!("flatc-sys: {why}");
            exit(1);
        }
    }
}

/// The folder that FLATC_LIB_DIR names, if a library that can be linked is in it.
fn named_folder(folder: OsString, is_static: bool) -> Result<PathBuf, String> {
    let folder = PathBuf::from(folder);
    let names: &[&str] = if is_static {
        &["libflatc.a"]
    } else {
        &["libflatc.so", "libflatc.dylib", "libflatc.a"]
    };
    if !folder.is_absolute() {
        return Err(format!("FLATC_LIB_DIR={} isn't an absolute path", folder.display()));
    }
    for path in names.iter().map(|name| folder.join(name)) {
        if path.exists() {
            println!("cargo:rerun-if-changed={}", path.display());
            return Ok(folder);
        }
    }
    let folder = folder.display();
    Err(format!("FLATC_LIB_DIR={folder} has no {}", names.join(" or ")))
}

/// The folders that pkg-config names: for a shared library none where the linker looks anyway.
fn pkg_config_folders(is_static: bool) -> Result<Vec<PathBuf>, String> {
    if !is_static {
        let words = words(&pkg_config("--libs-only-L")?).into_iter();
        return Ok(words
            .filter_map(|it| it.strip_prefix("-L").map(PathBuf::from))
            .collect());
    }
    // rustc reads a static library itself, and doesn't look in the linker's folders.
    let folder = PathBuf::from(pkg_config("--variable=libdir")?.trim().replace('\\', ""));
    println!("cargo:rerun-if-changed={}", folder.join("libflatc.a").display());
    if !folder.join("libflatc.a").exists() {
        return Err(format!(
            "{}, which pkg-config names, has no libflatc.a",
            folder.display()
        ));
    }
    Ok(vec![folder])
}

/// The words that pkg-config prints: a backslash quotes the next character.
fn words(text: &str) -> Vec<String> {
    let (mut words, mut word, mut letters) = (Vec::new(), String::new(), text.chars());
    while let Some(letter) = letters.next() {
        match letter {
            '\\' => word.extend(letters.next()),
            _ if letter.is_whitespace() => words.push(std::mem::take(&mut word)),
            _ => word.push(letter),
        }
    }
    words.push(word);
    words
}

fn pkg_config(what: &str) -> Result<String, String> {
    let program = env::var_os("PKG_CONFIG").unwrap_or_else(|| "pkg-config".into());
    let why = match Command::new(&program).args(["--print-errors", what, PACKAGE]).output() {
        Ok(done) if done.status.success() => {
            return Ok(String::from_utf8_lossy(&done.stdout).into_owned());
        }
        Ok(done) => String::from_utf8_lossy(&done.stderr).into_owned(),
        Err(error) => error.to_string(),
    };
    let program = program.to_string_lossy();
    Err(format!(
        "libflatc isn't found. Install it, or set FLATC_LIB_DIR to the folder that has it. \
         {program} \"{PACKAGE}\":\n{}",
        why.trim_end()
    ))
}
