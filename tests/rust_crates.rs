//! Makes one call of the crate flatc between the lines "armed" and "disarmed", for tests/refuse.c, and prints how it
//! ended: rust_crates CALL.
use flatc::{Error, Schema};

const TEXT: &str = "table Monster { name:string; hp:short = 100; } root_type Monster;";
const JSON: &str = r#"{"name": "Orc"}"#;
const WRONG: &str = r#"{"name": "Orc", "hp": 70000}"#;

fn main() -> Result<(), Error> {
    let call = std::env::args().nth(1).unwrap_or_default();
    let schema = Schema::new(TEXT)?;
    let newer = schema.try_clone()?;
    let buffer = schema.encode(JSON)?;
    println!("armed");
    let result = match call.as_str() {
        "new" => Schema::new(TEXT).map(drop),
        "try_clone" => schema.try_clone().map(drop),
        "encode" => schema.encode(JSON).map(drop),
        "decode" => schema.decode(&buffer).map(drop),
        "verify" => schema.verify(&buffer),
        "conform" => schema.conform(&newer),
        "refuse" => schema.encode(WRONG).map(drop),
        _ => panic!("rust_crates CALL"),
    };
    println!("disarmed");
    match result {
        Ok(()) => println!("done"),
        Err(Error::OutOfMemory) => println!("out of memory"),
        Err(other) => println!("{}", other.kind().map_or("another status", |it| it.name())),
    }
    Ok(())
}
