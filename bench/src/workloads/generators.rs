//! Runs of generators: code is matched, rebuilt, put under binders; and many tiny ones.
use super::trees::{balanced, identity, inert, mixed};
use super::{Call, Expected, Workload};
use crate::muntinyarrow::Ending;
use crate::programs::{Builder, Term};

pub fn all() -> Vec<Workload> {
    vec![layout_chain(), layout_tree(), open_code(), few_free(), many_free(), different_codes(), opened_mixed(), refilled(), tiny_files()]
}

/// Walks layout code and rebuilds it with other numbers: `row x y` and `pad x` are told apart by the matches, 7 becomes 9 at the leaves, any
/// other number stays.
fn walker(build: &Builder) -> Term {
    let nat = build.nat();
    let code = build.code(nat);
    let (pad, row) = layout_types(build);
    let (pad_code, row_code, walk) = (build.code(pad), build.code(row), build.fun(code, code));
    let again = |recursion: u16, part: u16| build.splice(build.application(build.variable(walk, recursion), build.variable(code, part)));
    let splice = |written_type: u16, index: u16| build.splice(build.variable(written_type, index));
    let rebuilt_row = build.application(build.application(splice(row_code, 1), again(5, 0)), again(5, 2));
    let rebuilt_pad = build.application(splice(pad_code, 1), again(3, 0));
    let inner = build.match_application(nat, build.variable(pad_code, 1), build.quote(rebuilt_row), build.quote(rebuilt_pad));
    let other = build.lift(build.variable(nat, 0));
    let leaf = build.match_number(7, build.variable(code, 1), build.quote(build.number(9)), other);
    let number = build.match_lift(build.variable(code, 0), leaf, build.variable(code, 0));
    let body = build.match_application(nat, build.variable(code, 0), inner, number);
    build.fix(build.function(walk, build.function(code, body)))
}

/// The types of `pad` and `row`.
fn layout_types(build: &Builder) -> (u16, u16) {
    let pad = build.fun(build.nat(), build.nat());
    (pad, build.fun(build.nat(), pad))
}

/// quote(function row: function pad: splice(walk (quote layout))).
fn walked(build: &Builder, layout: Term) -> Term {
    let (pad, row) = layout_types(build);
    let splice = build.splice(build.application(walker(build), build.quote(layout)));
    build.quote(build.function(row, build.function(pad, splice)))
}

/// A layout of 200 nested paddings around a number, walked to the end.
fn layout_chain() -> Workload {
    let build = Builder::default();
    let (pad, _) = layout_types(&build);
    let layout = (0..200).fold(build.number(7), |inner, _| build.application(build.variable(pad, 0), inner));
    Workload::run("generator on a layout chain", build.program(&walked(&build, layout)), 10_000, Ending::Value, 1_206)
}

/// A layout of rows and paddings, 5 levels deep, walked to the end: 94 nodes.
fn layout_tree() -> Workload {
    let build = Builder::default();
    let layout = rows(&build, 5);
    Workload::run("generator on a layout tree", build.program(&walked(&build, layout)), 10_000, Ending::Value, 580)
}

fn rows(build: &Builder, levels: u32) -> Term {
    if levels == 0 {
        return build.number(7);
    }
    let (pad, row) = layout_types(build);
    let padded = build.application(build.variable(pad, 0), rows(build, levels - 1));
    let left = if levels == 1 { build.number(3) } else { rows(build, levels - 1) };
    build.application(build.application(build.variable(row, 1), left), padded)
}

fn open_code() -> Workload {
    let build = Builder::default();
    raised("open code raised under binders", &build, inert(&build, 60, 4))
}

/// The same with larger code, in which few of the indices are free, among indices of the code's own binders.
fn few_free() -> Workload {
    let build = Builder::default();
    raised("raised code, one index of 16 free", &build, mixed(&build, 140, 4, 16, 3))
}

/// The same with as many free ones as others, without order.
fn many_free() -> Workload {
    let build = Builder::default();
    raised("raised code, one index of 2 free", &build, mixed(&build, 140, 4, 2, 3))
}

/// 300 programs, each of which puts other such code under binders in one step: which indices are free can't be learnt from steps before.
fn different_codes() -> Workload {
    let program = |seed: u64| {
        let build = Builder::default();
        let put = build.function(build.code(build.nat()), put_under(&build));
        under_four(&build, build.application(put, build.quote(mixed(&build, 140, 4, 2, seed))))
    };
    let expected = Expected::Ended { ending: Ending::Spent, steps: 300 };
    Workload { name: "300 different codes raised", programs: (0..300).map(program).collect(), fuel: 1, call: Call::Run, expected }
}

/// A loop that puts code, open under 4 binders, under others again and again.
fn raised(name: &'static str, build: &Builder, layout: Term) -> Workload {
    let step = loop_over(build, build.code(build.nat()), put_under(build));
    Workload::run(name, under_four(build, build.application(step, build.quote(layout))), 1_100, Ending::Spent, 1_100)
}

/// A program that splices code under 4 binders.
fn under_four(build: &Builder, code: Term) -> Vec<u8> {
    build.program(&build.quote((0..4).fold(build.splice(code), |body, _| build.function(build.nat(), body))))
}

/// Puts the code that variable 0 stands for at 8 places under 64 and more binders of a quote, so that its indices are raised, and then drops the quote.
fn put_under(build: &Builder) -> Term {
    let nat = build.nat();
    let code = build.code(nat);
    let under = (0..64).fold(uses(build, 8, 64), |body, _| build.function(nat, body));
    build.match_function(build.quote(under), build.variable(code, 1), build.variable(code, 0))
}

/// So many splices of the code variable that is bound outside of the binders, each but the first under one more.
fn uses(build: &Builder, count: usize, binders: u16) -> Term {
    if count == 0 {
        return build.number(0);
    }
    let splice = build.splice(build.variable(build.code(build.nat()), binders));
    build.application(build.function(build.nat(), uses(build, count - 1, binders + 1)), splice)
}

/// fix(function: function: recur next), which goes on for ever with `next`, where variable 0 is the last one.
fn loop_over(build: &Builder, state: u16, next: Term) -> Term {
    let recursion = build.fun(state, state);
    let again = build.application(build.variable(recursion, 1), next);
    build.fix(build.function(recursion, build.function(state, again)))
}

/// A loop that matches the code of a function, whose uses of its variable become splices, and closes it again to the same code.
fn refilled() -> Workload {
    let build = Builder::default();
    let nat = build.nat();
    let body = balanced(&build, 300, 1, &|binders| build.variable(nat, binders - 1));
    let function = build.function(nat, body);
    let (state, opened) = (build.code(build.fun(nat, nat)), build.fun(build.code(nat), build.code(nat)));
    let filled = build.application(build.variable(opened, 1), build.quote(build.variable(nat, 0)));
    let closed = build.quote(build.function(nat, build.splice(filled)));
    let next = build.match_function(build.variable(state, 0), closed, build.variable(state, 0));
    let root = build.application(loop_over(&build, state, next), build.quote(function));
    Workload::run("function code opened and closed", build.program(&root), 2_000, Ending::Spent, 2_000)
}

/// The same with other variables in the body, half of them free and half bound in it, which stand among the uses.
fn opened_mixed() -> Workload {
    let build = Builder::default();
    let nat = build.nat();
    let (state, opened) = (build.code(build.fun(nat, nat)), build.fun(build.code(nat), build.code(nat)));
    let filled = build.application(build.variable(opened, 1), build.quote(build.variable(nat, 0)));
    let closed = build.quote(build.function(nat, build.splice(filled)));
    let next = build.match_function(build.variable(state, 0), closed, build.variable(state, 0));
    let body = mixed(&build, 300, 5, 2, 3);
    let inner = build.application(loop_over(&build, state, next), build.quote(build.function(nat, body)));
    let root = build.quote((0..4).fold(build.application(build.splice(inner), build.number(1)), |body, _| build.function(nat, body)));
    Workload::run("mixed code opened and closed", build.program(&root), 2_000, Ending::Spent, 2_000)
}

/// 2,000 different programs of 4 to 15 records, one run each: what a call costs beside its steps.
fn tiny_files() -> Workload {
    let programs = (0..2_000).map(tiny_file).collect();
    Workload { name: "2,000 tiny files", programs, fuel: 100, call: Call::Run, expected: Expected::Ended { ending: Ending::Value, steps: 3_500 } }
}

fn tiny_file(place: u32) -> Vec<u8> {
    let build = Builder::default();
    let (nat, number) = (build.nat(), build.number(place / 8));
    let (code, function) = (build.code(nat), build.code(build.fun(nat, nat)));
    let quoted = |value: u32| build.quote(build.number(value));
    let applied = build.quote(build.application(identity(&build), number.clone()));
    let root = match place % 8 {
        0 => build.application(identity(&build), number),
        1 => build.quote(build.splice(build.lift(number))),
        2 => build.match_lift(build.quote(number), build.variable(nat, 0), build.number(0)),
        3 => build.match_number(42, build.quote(number), quoted(1), quoted(2)),
        4 => build.match_application(nat, applied, build.variable(code, 0), quoted(1)),
        5 => {
            let refilled = build.quote(build.application(build.splice(build.variable(function, 1)), build.number(42)));
            let body = build.match_application(nat, build.variable(code, 0), refilled, build.variable(code, 0));
            build.application(build.function(code, body), applied)
        }
        6 => {
            let opened = build.fun(code, code);
            let filled = build.application(build.variable(opened, 0), build.quote(number));
            build.match_function(build.quote(identity(&build)), filled, quoted(1))
        }
        _ => {
            let matched = build.match_variable(0, build.quote(build.variable(nat, 0)), build.quote(number), quoted(2));
            build.quote(build.function(nat, build.splice(matched)))
        }
    };
    build.program(&root)
}
