//! Schemas that threads share.
use flatc::{Bytes, Error, FaultKind, Schema};
use std::sync::{Barrier, OnceLock};
use std::thread;

const TEXT: &str = include_str!("../../../../examples/monster.fbs");
const JSON: &str = include_str!("../../../../examples/monster.json");
const THREADS: usize = 4;
const ROUNDS: usize = 300;

fn shared() -> &'static Schema {
    static SCHEMA: OnceLock<Schema> = OnceLock::new();
    SCHEMA.get_or_init(|| Schema::new(TEXT).unwrap())
}

#[test]
fn threads_share_a_static_schema() {
    let wanted = shared().encode(JSON).unwrap();
    let text = shared().decode(&wanted).unwrap();
    let start = Barrier::new(THREADS);
    let work = || {
        start.wait();
        for _ in 0..ROUNDS {
            let buffer = shared().encode(JSON).unwrap();
            assert_eq!(buffer, wanted);
            assert_eq!(shared().decode(&buffer).unwrap(), text);
            shared().verify(&buffer).unwrap();
            assert_eq!(shared().encode("[").unwrap_err().kind(), Some(FaultKind::BadJson));
            shared().conform(shared()).unwrap();
        }
    };
    thread::scope(|scope| {
        for _ in 0..THREADS {
            scope.spawn(work);
        }
    });
}

#[test]
fn threads_own_a_clone_each() {
    let schema = Schema::new(TEXT).unwrap();
    let wanted = schema.encode(JSON).unwrap();
    let clones: Vec<Schema> = (0..THREADS).map(|_| schema.clone()).collect();
    drop(schema);
    let encode = |schema: Schema| thread::spawn(move || schema.encode(JSON).unwrap());
    let threads: Vec<_> = clones.into_iter().map(encode).collect();
    for thread in threads {
        assert_eq!(thread.join().unwrap(), wanted);
    }
}

#[test]
fn two_schemas_are_compared_both_ways() {
    let (old, new) = (
        Schema::new(TEXT).unwrap(),
        Schema::new(TEXT.replace("hp:short", "health:short")).unwrap(),
    );
    let compare = |one: &Schema, other: &Schema| {
        for _ in 0..ROUNDS {
            one.conform(other).unwrap();
        }
    };
    thread::scope(|scope| {
        scope.spawn(|| compare(&old, &new));
        scope.spawn(|| compare(&new, &old));
        scope.spawn(|| compare(&old, &old));
    });
}

#[test]
fn results_go_to_other_threads() {
    let schema = shared();
    let made: Result<Bytes, Error> = thread::spawn(|| schema.encode(JSON)).join().unwrap();
    let refused: Result<Bytes, Error> = thread::spawn(|| schema.encode("[")).join().unwrap();
    thread::spawn(move || schema.verify(made.unwrap()).unwrap())
        .join()
        .unwrap();
    assert_eq!(refused.unwrap_err().kind(), Some(FaultKind::BadJson));
}
