//! The bench sheet K1 to K11, the small inputs of the refusals, and infer: what it appends and writes, and what it names first.
use super::format::{kind, Program, Record, Type, Types};
use super::run::write_program;
use super::term::{Application, Match, Node, Pattern, Term};
use super::{check, infer, run, Ending, Inferred, Ran, Refusal, OUTPUT, WORK};
use crate::programs::untyped;

const NAT: u16 = 1;
const FN: u16 = 2; // Nat to Nat
const CODE: u16 = 3; // Code(Nat)
const CODE_FN: u16 = 4; // Code(Fn(Nat,Nat))
const CODE_TO_CODE: u16 = 5; // Fn(Code(Nat), Code(Nat))
const FN_TO_NAT: u16 = 6; // Fn(Fn(Nat,Nat), Nat)
const CODE_FN_TO_NAT: u16 = 7; // Code(Fn(Fn(Nat,Nat), Nat))

fn types() -> Types {
    use Type::{Code, Function, Nat};
    Types(vec![Nat, Function(NAT, NAT), Code(NAT), Code(FN), Function(CODE, CODE), Function(FN, NAT), Code(FN_TO_NAT)])
}

fn number(value: u32) -> Term {
    Term::new(NAT, Node::Number(value))
}

fn variable(ty: u16, index: u16) -> Term {
    Term::new(ty, Node::Variable(index))
}

fn function(ty: u16, argument: u16, body: Term) -> Term {
    Term::new(ty, Node::Function { argument, body: Box::new(body) })
}

fn identity() -> Term {
    function(FN, NAT, variable(NAT, 0))
}

fn apply(ty: u16, function: Term, argument: Term) -> Term {
    Term::new(ty, Node::Application(Box::new(Application { function, argument })))
}

fn splice(ty: u16, child: Term) -> Term {
    Term::new(ty, Node::Splice(Box::new(child)))
}

fn fix(child: Term) -> Term {
    Term::new(NAT, Node::Fix(Box::new(child)))
}

fn matching(pattern: Pattern, code: Term, success: Term, failure: Term) -> Term {
    Term::new(success.ty, Node::Match(Box::new(Match { pattern, code, success, failure })))
}

fn program(term: &Term) -> Vec<u8> {
    let mut bytes = vec![0; OUTPUT];
    let length = write_program(&types(), term, term.size(), &mut bytes);
    bytes.truncate(length);
    bytes
}

fn run_term(term: &Term, fuel: u32) -> (Ran, Vec<u8>) {
    let mut output = vec![0; OUTPUT];
    let ran = run(&program(term), fuel, &mut output, &mut vec![0; WORK]).expect("a passed program");
    output.truncate(ran.written);
    (ran, output)
}

/// The steps, and the variables that give way in them.
fn expect(term: &Term, fuel: u32, ending: Ending, (steps, replaced): (u32, u64), last: &Term) {
    let (ran, output) = run_term(term, fuel);
    assert_eq!((ran.ending, ran.steps, ran.replaced, ran.root_type), (ending, steps, replaced, term.ty.into()));
    assert_eq!(output, program(last));
}

#[test]
fn k1_k2_application() {
    let term = apply(NAT, identity(), number(42));
    expect(&term, 5, Ending::Value, (1, 1), &number(42));
    expect(&term, 0, Ending::Spent, (0, 0), &term);
}

#[test]
fn k3_k4_match_application() {
    let pattern = Pattern::Application { function: CODE_FN, argument: CODE };
    let success = Term::quote(CODE, apply(NAT, splice(FN, variable(CODE_FN, 1)), number(42)));
    let rewriter = function(CODE_TO_CODE, CODE, matching(pattern, variable(CODE, 0), success, variable(CODE, 0)));
    let applied = Term::quote(CODE, apply(NAT, identity(), number(10)));
    let rewritten = Term::quote(CODE, apply(NAT, identity(), number(42)));
    expect(&apply(CODE, rewriter.clone(), applied), 100, Ending::Value, (3, 3), &rewritten);
    let ten = Term::quote(CODE, number(10));
    expect(&apply(CODE, rewriter, ten.clone()), 100, Ending::Value, (2, 2), &ten);
}

#[test]
fn k5_argument_of_another_type() {
    let pattern = Pattern::Application { function: CODE_FN_TO_NAT, argument: CODE_FN };
    let code = Term::quote(CODE, apply(NAT, identity(), number(10)));
    let term = matching(pattern, code, Term::quote(CODE, number(1)), Term::quote(CODE, number(2)));
    expect(&term, 100, Ending::Value, (1, 0), &Term::quote(CODE, number(2)));
}

#[test]
fn k6_match_function() {
    let seven = Term::quote(CODE, number(7));
    let success = apply(CODE, variable(CODE_TO_CODE, 0), seven.clone());
    let term = matching(Pattern::Function(CODE_TO_CODE), Term::quote(CODE_FN, identity()), success, Term::quote(CODE, number(0)));
    expect(&term, 100, Ending::Value, (3, 2), &seven);
}

#[test]
fn k7_match_variable() {
    let code = Term::quote(CODE, variable(NAT, 0));
    let matched = matching(Pattern::Variable(0), code, Term::quote(CODE, number(1)), Term::quote(CODE, number(2)));
    let term = Term::quote(CODE_FN, function(FN, NAT, splice(NAT, matched)));
    expect(&term, 100, Ending::Value, (2, 0), &Term::quote(CODE_FN, function(FN, NAT, number(1))));
}

#[test]
fn k8_match_lift() {
    let term = matching(Pattern::Lift(NAT), Term::quote(CODE, number(5)), variable(NAT, 0), number(0));
    expect(&term, 100, Ending::Value, (1, 1), &number(5));
}

#[test]
fn k9_fix_of_identity() {
    let term = fix(identity());
    expect(&term, 1_000, Ending::Spent, (1_000, 1_000), &term);
}

#[test]
fn k10_k11_growing_fix() {
    let term = fix(function(FN, NAT, apply(NAT, identity(), variable(NAT, 0))));
    assert_eq!(check(&program(&term)).map(|passed| passed.records), Ok(6));
    let (spent, _) = run_term(&term, 680);
    assert_eq!((spent.ending, spent.steps, spent.replaced), (Ending::Spent, 680, 680));
    let (full, output) = run_term(&term, 681);
    assert_eq!((full.ending, full.steps, full.replaced), (Ending::Full, 680, 680));
    assert_eq!(check(&output).map(|passed| passed.records), Ok(2_046));
}

/// A program of one record under a table of Nat and Fn(Nat,Nat).
fn lone_record(fields: [u8; 6]) -> Vec<u8> {
    let [kind, ty, a, b, first, next] = fields;
    vec![2, 0, 1, 0, 1, 0, 0, 0, 0, 0, 2, 0, 1, 0, 1, 0, kind, 0, ty, 0, a, 0, b, 0, first, 0, next, 0, 0, 0, 0, 0]
}

#[test]
fn small_inputs_of_the_refusals() {
    let refusal = |bytes: &[u8]| check(bytes).err().map(|Refusal { number, place }| (number, place));
    assert_eq!(refusal(&[1, 0, 1]), Some((3, 0)));
    assert_eq!(refusal(&[1, 1, 1, 0]), Some((4, 0)));
    assert_eq!(refusal(&[&[1, 0, 1, 0, 1][..], &[0; 20]].concat()), Some((5, 0)));
    let mut nat_twice = lone_record([1, 1, 0, 0, 0, 0]);
    nat_twice.copy_within(4..10, 10);
    assert_eq!(refusal(&nat_twice), Some((6, 2)));
    assert_eq!(refusal(&lone_record([15, 1, 0, 0, 0, 0])), Some((7, 1)));
    assert_eq!(refusal(&lone_record([1, 1, 0, 0, 0, 1])), Some((8, 1)));
    assert_eq!(refusal(&lone_record([4, 1, 0, 0, 0, 0])), Some((9, 1)));
    assert_eq!(refusal(&lone_record([2, 1, 0, 0, 0, 0])), Some((10, 1)));
    assert_eq!(refusal(&program(&splice(NAT, Term::quote(CODE, number(1))))), Some((11, 1)));
    assert_eq!(refusal(&lone_record([1, 2, 0, 0, 0, 0])), Some((12, 1)));
    let passed = program(&number(1));
    assert_eq!(run(&passed, 1, &mut vec![0; OUTPUT - 1], &mut []), Err(Refusal { number: 1, place: 0 }));
    assert_eq!(run(&passed, 1, &mut vec![0; OUTPUT], &mut vec![0; WORK - 1]), Err(Refusal { number: 2, place: 0 }));
}

/// A program without types, by the table and each record's kind, a, first and next.
fn untyped_file(types: &[Type], records: &[[u16; 4]]) -> Vec<u8> {
    let record = |&[kind, a, first, next]: &[u16; 4]| Record { kind, a, first, next, ..Record::default() };
    let program = Program { types: Types(types.to_vec()), records: records.iter().map(record).collect() };
    let mut bytes = vec![0; OUTPUT];
    let length = program.write(&mut bytes);
    bytes.truncate(length);
    bytes
}

/// What infer answers and writes.
fn inferred(program: &[u8]) -> Result<(Inferred, Vec<u8>), (u32, u32)> {
    let mut output = vec![0; OUTPUT];
    let answer = infer(program, &mut output, &mut vec![0; WORK]).map_err(|Refusal { number, place }| (number, place))?;
    output.truncate(answer.written);
    Ok((answer, output))
}

fn refused(types: &[Type], records: &[[u16; 4]]) -> Option<(u32, u32)> {
    inferred(&untyped_file(types, records)).err()
}

/// A full table: Nat, then functions from Nat to the entry before.
fn full_table() -> Vec<Type> {
    let function = |number: u16| Type::Function(NAT, number);
    std::iter::once(Type::Nat).chain((1..256).map(function)).collect()
}

#[test]
fn infer_gives_cleared_types_back() {
    let code = Term::quote(CODE_FN, identity());
    let success = apply(CODE, variable(CODE_TO_CODE, 0), Term::quote(CODE, number(7)));
    let matched = matching(Pattern::Function(CODE_TO_CODE), code, success, Term::quote(CODE, number(0)));
    for term in [number(3), fix(identity()), matched] {
        let typed = program(&term);
        let (answer, written) = inferred(&untyped(&typed, types().0.len() as u16)).expect("it has types");
        assert_eq!((answer.root_type, answer.written), (term.ty.into(), typed.len()));
        assert_eq!(written, typed);
    }
}

#[test]
fn infer_appends_missing_types_in_the_order_of_typing() {
    let applied = apply(NAT, function(FN_TO_NAT, FN, number(1)), identity());
    let term = Term::quote(CODE, applied);
    let (answer, written) = inferred(&untyped(&program(&term), FN)).expect("it has types");
    let typed = check(&written).expect("it passes");
    assert_eq!((answer.root_type, typed.root_type, typed.records), (4, 4, 6));
    assert_eq!(written[..4 + 6 * 4], [4, 0, 6, 0, 1, 0, 0, 0, 0, 0, 2, 0, 1, 0, 1, 0, 2, 0, 2, 0, 1, 0, 3, 0, 1, 0, 0, 0]);
}

#[test]
fn infer_writes_in_preorder_and_names_the_files_record() {
    let application = [[kind::APPLICATION, 0, 2, 0], [kind::FUNCTION, NAT, 4, 3], [kind::NUMBER, 0, 0, 0], [kind::VARIABLE, 0, 0, 0]];
    let (_, written) = inferred(&untyped_file(&[Type::Nat], &application)).expect("it has types");
    assert_eq!(written, [&[2, 0, 4, 0, 1, 0, 0, 0, 0, 0, 2, 0, 1, 0, 1, 0][..], &program(&apply(NAT, identity(), number(0)))[4 + 6 * 7..]].concat());
    let mut free = application;
    free[3][1] = 1;
    assert_eq!(refused(&[Type::Nat], &free), Some((10, 4)));
}

#[test]
fn infer_looks_at_fields_then_types_then_links() {
    let mut typed = program(&fix(identity()));
    assert_eq!(inferred(&typed).err(), Some((13, 1)));
    let records = 4 + 6 * types().0.len();
    typed[records + 2] = 0;
    assert_eq!(inferred(&typed).err(), Some((13, 2)));
    typed[records + 8] = 9;
    assert_eq!(inferred(&typed).err(), Some((13, 2)));
    typed[records + 2 * 16] = 15;
    assert_eq!(inferred(&typed).err(), Some((7, 3)));
    assert_eq!(infer(&typed, &mut [], &mut []), Err(Refusal { number: 1, place: 0 }));
    assert_eq!(infer(&typed, &mut vec![0; OUTPUT], &mut vec![0; WORK - 1]), Err(Refusal { number: 2, place: 0 }));
}

#[test]
fn infer_names_the_first_fault_children_first() {
    let table = [Type::Nat];
    let (number, variable) = ([kind::NUMBER, 0, 0, 0], [kind::VARIABLE, 0, 0, 0]);
    let splice_of_number = [[kind::SPLICE, 0, 2, 0], number];
    assert_eq!(refused(&table, &splice_of_number), Some((11, 1)));
    let splice_of_application = [[kind::SPLICE, 0, 2, 0], [kind::APPLICATION, 0, 3, 0], [kind::NUMBER, 0, 0, 4], number];
    assert_eq!(refused(&table, &splice_of_application), Some((12, 2)));
    let free_failure = [[kind::MATCH_NUMBER, 0, 2, 0], [kind::NUMBER, 0, 0, 3], [kind::NUMBER, 0, 0, 4], variable];
    assert_eq!(refused(&table, &free_failure), Some((10, 4)));
    let quoted_twice = [[kind::QUOTE, 0, 2, 0], [kind::QUOTE, 0, 3, 0], [kind::SPLICE, 0, 4, 0], number];
    assert_eq!(refused(&table, &quoted_twice), Some((12, 3)));
    let quoted_match = [[kind::QUOTE, 0, 2, 0], [kind::MATCH_LIFT, 1, 3, 0], [kind::NUMBER, 0, 0, 4], [kind::VARIABLE, 0, 0, 5], number];
    assert_eq!(refused(&table, &quoted_match), Some((11, 4)));
}

#[test]
fn infer_counts_unused_entries_and_names_12_before_14() {
    let table = full_table();
    let quote = [[kind::QUOTE, 0, 2, 0], [kind::NUMBER, 0, 0, 0]];
    assert_eq!(refused(&table, &quote), Some((14, 1)));
    assert_eq!(inferred(&untyped_file(&table[..255], &quote)).map(|(answer, _)| (answer.root_type, answer.written)), Ok((256, OUTPUT - 16 * 2_046)));
    let lift_of_function = [[kind::LIFT, 0, 2, 0], [kind::FUNCTION, NAT, 3, 0], [kind::VARIABLE, 0, 0, 0]];
    assert_eq!(refused(&table, &lift_of_function), Some((12, 1)));
}
