//! Checks of full files of different shapes, and refusals that come early and late.
use super::trees::{curried, inert};
use super::{Call, Expected, Workload};
use crate::programs::{overwrite_last, Builder, Field};

pub fn all() -> Vec<Workload> {
    let passed = vec![
        Workload::check("check, balanced", balanced()),
        Workload::check("check, 2,048 deep", deep()),
        Workload::check("check, 256 types", types()),
        Workload::check("check, 683 binders deep", binders()),
    ];
    let refused = vec![refused_counts(), refused_length(), refused_output(), refused_link(), refused_type()];
    passed.into_iter().chain(refused).collect()
}

/// A full file with a shallow tree, the usual case of a large program.
pub fn balanced() -> Vec<u8> {
    let build = Builder::default();
    build.program(&inert(&build, 2_048, 0))
}

/// quote over splice over quote ... over a number: the greatest depth that a program can have.
pub fn deep() -> Vec<u8> {
    let build = Builder::default();
    let innermost = build.quote(build.number(7));
    let root = (0..1_023).fold(innermost, |code, _| build.quote(build.splice(code)));
    build.program(&root)
}

/// A full file with 256 type entries, of which each is used: a function of 255 numbers and its arguments. No binder needs any but Nat.
pub fn types() -> Vec<u8> {
    let build = Builder::default();
    build.program(&curried(&build, 255, 2_048 - 3 * 255))
}

/// 683 functions within one another, with variables that are bound about half the way out.
fn binders() -> Vec<u8> {
    let build = Builder::default();
    let application = |body, binders| build.application(build.function(build.nat(), body), inert(&build, 1, binders));
    let root = (0..681).rev().fold(inert(&build, 5, 681), application);
    build.program(&root)
}

/// A full file whose count of types is above the limit: refused by its first 4 bytes.
fn refused_counts() -> Workload {
    let mut program = balanced();
    program[..2].copy_from_slice(&257u16.to_le_bytes());
    Workload::refused("refused, counts", program, 4, 0)
}

/// A full file with one byte too many.
fn refused_length() -> Workload {
    let mut program = balanced();
    program.push(0);
    Workload::refused("refused, length", program, 5, 0)
}

/// A run of a full file with an output that is one byte too short.
fn refused_output() -> Workload {
    let expected = Expected::Refused { number: 1, place: 0 };
    Workload { name: "refused, short output", programs: vec![balanced()], fuel: 100, call: Call::ShortRun, expected }
}

/// A full file with a bad link in its last record: all links are looked at, no record is judged.
fn refused_link() -> Workload {
    let mut program = balanced();
    overwrite_last(&mut program, Field::First, 2_049);
    Workload::refused("refused, link of the last record", program, 8, 2_048)
}

/// A full file with a type fault in its last record, a number with the function type that its application asks for: all else is judged before.
fn refused_type() -> Workload {
    let build = Builder::default();
    let of_numbers = build.fun(build.nat(), build.nat());
    let root = build.application(build.function(of_numbers, inert(&build, 2_045, 0)), build.number(7));
    let mut program = build.program(&root);
    overwrite_last(&mut program, Field::Type, of_numbers);
    Workload::refused("refused, type of the last record", program, 12, 2_048)
}
