//! Trees of type Nat that several workloads are made of.
use crate::programs::{Builder, Term};
use crate::random::Random;
use std::cell::RefCell;

/// A tree of exactly so many records (not 0 or 2), its leaves made from the number of binders around them. Each inner node applies a function
/// and halves what is left, so that the tree is as shallow as its kinds allow.
pub fn balanced(build: &Builder, records: usize, binders: u16, leaf: &dyn Fn(u16) -> Term) -> Term {
    let nat = build.nat();
    let function = |body: usize| build.function(nat, balanced(build, body, binders + 1, leaf));
    let split = |body: usize| build.application(function(body), balanced(build, records - 2 - body, binders, leaf));
    match records {
        1 => leaf(binders),
        3 | 5 => build.fix(function(records - 2)),
        4 | 6 | 7 => split(1),
        _ => split((records - 2) / 2),
    }
}

/// A balanced tree in which leaves are variables bound about half the way out, or numbers where nothing is bound.
pub fn inert(build: &Builder, records: usize, binders: u16) -> Term {
    let leaf = |binders: u16| if binders == 0 { build.number(7) } else { build.variable(build.nat(), binders / 2) };
    balanced(build, records, binders, &leaf)
}

/// A balanced tree under so many binders in which one leaf of `free` is a variable of one of them, any other one a variable that the tree binds itself, or
/// a number where it binds none. Which is which follows from the seed alone.
pub fn mixed(build: &Builder, records: usize, binders: u16, free: usize, seed: u64) -> Term {
    let random = RefCell::new(Random::new(seed));
    let variable = |low: u16, high: u16| build.variable(build.nat(), random.borrow_mut().between(low.into(), high.into()) as u16);
    let leaf = |all: u16| {
        let own = all - binders;
        let drawn = random.borrow_mut().below(free);
        match (drawn, own) {
            (0, _) => variable(own, all - 1),
            (_, 0) => build.number(7),
            _ => variable(0, own - 1),
        }
    };
    balanced(build, records, binders, &leaf)
}

/// function Nat: 0, the identity of numbers.
pub fn identity(build: &Builder) -> Term {
    build.function(build.nat(), build.variable(build.nat(), 0))
}

/// fix(function Nat: 0), which is its own next term.
pub fn spinning(build: &Builder) -> Term {
    build.fix(identity(build))
}

/// The identity applied to the identity applied to ... the innermost term: 3 records each time.
pub fn nested(build: &Builder, depth: usize, innermost: Term) -> Term {
    (0..depth).fold(innermost, |inner, _| build.application(identity(build), inner))
}

/// A curried function of so many numbers, with a body of the given records, and its application to that many numbers.
pub fn curried(build: &Builder, arity: u16, body_records: usize) -> Term {
    let nat = build.nat();
    let body = inert(build, body_records, arity);
    let function = (0..arity).fold(body, |body, _| build.function(nat, body));
    (0..arity).fold(function, |function, argument| build.application(function, build.number(u32::from(argument))))
}
