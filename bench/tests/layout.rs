//! Inputs that a wrong measure of a tree, a wrong place or a wrong room would show. Both engines agree in the answer and in every byte, with each fuel.
use bench::muntinyarrow::{self, Ending, OUTPUT, WORK};
use bench::programs::{stated_records, Builder, Term};
use bench::reference;

const FUELS: u32 = 24;

/// Runs both engines with this fuel; gives the ending and the records of what is written.
fn agree(program: &[u8], fuel: u32, what: &str) -> (Ending, usize) {
    let (mut ours, mut theirs) = (vec![0xa5; OUTPUT], vec![0xa5; OUTPUT]);
    let ran = muntinyarrow::run(program, fuel, &mut ours, &mut vec![0; WORK]).unwrap_or_else(|refusal| panic!("{what}: {refusal:?}"));
    let expected = reference::run(program, fuel, &mut theirs, &mut vec![0; WORK]).expect("the reference accepts it");
    assert_eq!(ran, expected, "{what}, fuel {fuel}");
    assert!(ours == theirs, "{what}, fuel {fuel}: the outputs differ");
    (ran.ending, stated_records(&ours))
}

/// `body` under `count` functions of numbers.
fn under(build: &Builder, count: u16, body: Term) -> Term {
    (0..count).fold(body, |body, _| build.function(build.nat(), body))
}

/// (function: 0) x, where x is the variable with this index: open code.
fn open(build: &Builder, index: u16) -> Term {
    let nat = build.nat();
    build.application(build.function(nat, build.variable(nat, 0)), build.variable(nat, index))
}

/// The code bound at `index`, spliced under `count` more functions of numbers.
fn moved(build: &Builder, bound: u16, index: u16, count: u16, use_of: impl Fn(Term) -> Term) -> Term {
    build.quote(under(build, count, use_of(build.splice(build.variable(bound, index + count)))))
}

/// A match of each kind that moves open code, whose free variable has this index, under `count` more functions. It stands at level 0.
fn matches(build: &Builder, index: u16, count: u16) -> Vec<(&'static str, Term)> {
    let nat = build.nat();
    let (code, of_numbers) = (build.code(nat), build.fun(nat, nat));
    let failure = || build.quote(under(build, count, build.number(1)));
    let same = |t: Term| t;
    let applied = |t: Term| build.application(t, build.number(3));
    let fixed = |t: Term| build.fix(t);
    vec![
        ("number", build.match_number(5, build.quote(build.number(5)), build.quote(under(build, count, open(build, index + count))), failure())),
        ("variable", build.match_variable(index, build.quote(build.variable(nat, index)), build.quote(under(build, count, open(build, index + count))), failure())),
        ("function of an application", build.match_application(nat, build.quote(open(build, index)), moved(build, build.code(of_numbers), 1, count, applied), failure())),
        ("argument of an application", build.match_application(nat, build.quote(open(build, index)), moved(build, code, 0, count, same), failure())),
        ("lift", build.match_lift(build.quote(build.number(8)), build.quote(under(build, count, build.splice(build.lift(build.variable(nat, count))))), failure())),
        (
            "function",
            build.match_function(
                build.quote(build.function(nat, open(build, index + 1))),
                build.quote(under(build, count, build.splice(build.application(build.variable(build.fun(code, code), count), build.quote(build.number(4)))))),
                failure(),
            ),
        ),
        ("fix", build.match_fix(build.quote(build.fix(build.function(nat, open(build, index + 1)))), moved(build, build.code(of_numbers), 0, count, fixed), failure())),
    ]
}

#[test]
fn open_code_is_moved_by_every_kind_of_match() {
    for binders in 1..5 {
        for index in 0..binders {
            for count in 0..4 {
                let build = Builder::default();
                for (name, matched) in matches(&build, index, count) {
                    let program = build.program(&build.quote(under(&build, binders, build.splice(matched))));
                    for fuel in 0..FUELS {
                        agree(&program, fuel, &format!("match {name}, index {index} of {binders}, moved under {count}"));
                    }
                }
            }
        }
    }
}

/// (function: 1) c: a use of the code bound at `index`, of this type, in a number.
fn using(build: &Builder, bound: u16, index: u16) -> Term {
    build.application(build.function(bound, build.number(1)), build.variable(bound, index))
}

/// (function: 0) ((function: 0) (.. t)): 3 records more for each of `count`.
fn padded(build: &Builder, count: u16, t: Term) -> Term {
    let nat = build.nat();
    (0..count).fold(t, |t, _| build.application(build.function(nat, build.variable(nat, 0)), t))
}

/// A match of a fix whose success uses what is bound `uses` times, and whose failure, of 301 records, is dropped. `inner` applications are in the fix.
fn growing(build: &Builder, uses: u16, inner: u16, outer: u16) -> Term {
    let nat = build.nat();
    let bound = build.code(build.fun(nat, nat));
    let fixed = build.fix(build.function(nat, padded(build, inner, build.variable(nat, 0))));
    let success = (1..uses).fold(using(build, bound, 0), |success, _| build.application(build.function(nat, using(build, bound, 1)), success));
    build.match_fix(build.quote(fixed), padded(build, outer, success), padded(build, 100, build.number(1)))
}

/// The sizes of programs' next terms around the limit: uses, applications in the fix, applications around the success, and the records.
fn around_the_limit() -> impl Iterator<Item = (u16, u16, u16, usize)> {
    let all = (2..60).flat_map(|uses| (1..60).flat_map(move |inner| (0..4).map(move |outer| (uses, inner, outer))));
    let sized = all.map(|(uses, inner, outer)| (uses, inner, outer, usize::from(6 * uses - 2 + uses * (3 * inner + 2) + 3 * outer)));
    sized.filter(|(.., records)| (2_044..2_054).contains(records))
}

#[test]
fn terms_end_just_at_and_just_above_the_limit() {
    let mut seen = Vec::new();
    for (uses, inner, outer, records) in around_the_limit() {
        let build = Builder::default();
        let program = build.program(&growing(&build, uses, inner, outer));
        let what = format!("{uses} uses, {inner} inside, {outer} around");
        let (ending, written) = agree(&program, 1, &what);
        assert_eq!(ending == Ending::Full, records > 2_048, "{records} records");
        assert!(ending == Ending::Full || written == records, "{records} records, {written} written");
        for fuel in 2..FUELS {
            agree(&program, fuel, &what);
        }
        seen.push(records);
    }
    assert!(seen.contains(&2_048) && seen.contains(&2_049), "{seen:?}");
}
