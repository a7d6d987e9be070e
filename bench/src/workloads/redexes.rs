//! Runs in which small redexes are rewritten many times, in terms of different sizes and shapes.
use super::trees::{curried, inert, nested, spinning};
use super::Workload;
use crate::muntinyarrow::Ending;
use crate::programs::{Builder, Term};

pub fn all() -> Vec<Workload> {
    vec![
        spin(),
        growth(),
        inert_before("inert part before the redex, 200", 200),
        inert_before("inert part before the redex, 2,000", 2_000),
        inert_after("inert part after the redex, 200", 200),
        inert_after("inert part after the redex, 2,000", 2_000),
        spine_right(),
        spine_collapse(),
        spine_left(),
        cascade(),
    ]
}

/// The least term that never ends: what one step costs apart from the size of the term.
fn spin() -> Workload {
    let build = Builder::default();
    Workload::run("spin, 3 records", build.program(&spinning(&build)), 100_000, Ending::Spent, 100_000)
}

/// A recursion without end that piles up waiting functions until the table is full.
fn growth() -> Workload {
    let build = Builder::default();
    let waiting = nested(&build, 1, build.variable(build.nat(), 0));
    let root = build.fix(build.function(build.nat(), waiting));
    Workload::run("growth to the limit", build.program(&root), 1_000, Ending::Full, 680)
}

/// A small redex after a value that takes nearly all of the records: the function is ready, its argument spins. There are so many steps that the check
/// and the writing don't count.
fn inert_before(name: &'static str, records: usize) -> Workload {
    let build = Builder::default();
    let function = build.function(build.nat(), inert(&build, records - 5, 1));
    let root = build.application(function, spinning(&build));
    Workload::run(name, build.program(&root), 100_000, Ending::Spent, 100_000)
}

/// A small redex before a tree that is not reached and takes nearly all of the records: the function spins, its argument waits.
fn inert_after(name: &'static str, records: usize) -> Workload {
    let build = Builder::default();
    let root = build.application(spinning_function(&build), inert(&build, records - 4, 0));
    Workload::run(name, build.program(&root), 100_000, Ending::Spent, 100_000)
}

/// A redex below 660 waiting applications, rewritten in place: the way down to it is most of the work.
fn spine_right() -> Workload {
    let build = Builder::default();
    let root = nested(&build, 660, spinning(&build));
    Workload::run("spine to the right, spinning", build.program(&root), 2_000, Ending::Spent, 2_000)
}

/// 660 waiting applications that are done one after another, the innermost first.
fn spine_collapse() -> Workload {
    let build = Builder::default();
    let root = nested(&build, 660, build.number(1));
    Workload::run("spine to the right, collapsing", build.program(&root), 1_000, Ending::Value, 660)
}

/// A curried function given all of its 250 arguments: the redex lies deep to the left, and each substitution goes through the binders that
/// are left and a body of 1,248 records.
fn spine_left() -> Workload {
    let build = Builder::default();
    let root = curried(&build, 250, 1_248);
    Workload::run("spine to the left, curried", build.program(&root), 250, Ending::Spent, 250)
}

/// 400 matches of all kinds that need no variable, each of which fails into the next.
fn cascade() -> Workload {
    let build = Builder::default();
    let root = (0..400).fold(build.number(0), |failure, place| failing_match(&build, place, failure));
    Workload::run("cascade of failing matches", build.program(&root), 1_000, Ending::Value, 400)
}

fn failing_match(build: &Builder, place: u32, failure: Term) -> Term {
    let nat = build.nat();
    let number = build.quote(build.number(1_000));
    let fix = build.quote(spinning(build));
    match place % 5 {
        0 => build.match_number(place, number, build.number(1), failure),
        1 => build.match_application(nat, number, build.number(1), failure),
        2 => build.match_lift(fix, build.number(1), failure),
        3 => build.match_function(build.quote(spinning_function(build)), build.number(1), failure),
        _ => build.match_fix(number, build.number(1), failure),
    }
}

/// fix(function Fn(Nat,Nat): 0): a spinning term that has a function's type.
fn spinning_function(build: &Builder) -> Term {
    let of_numbers = build.fun(build.nat(), build.nat());
    build.fix(build.function(of_numbers, build.variable(of_numbers, 0)))
}
