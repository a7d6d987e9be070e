//! The step rules. A redex is rewritten in place, once the next term is known to fit.
use super::format::{Type, Types, MAX_RECORDS};
use super::substitution::Binding;
use super::term::{Match, Node, Pattern, Term};
use std::mem::take;

/// What a step comes to: the records of the next term, and how many variables gave way.
pub struct Contracted {
    pub size: usize,
    pub replaced: u64,
}

/// Rewrites a redex within a term of `size` records. Gives none, changing nothing, where the next term is too large.
pub fn contract(redex: &mut Term, types: &Types, size: usize) -> Option<Contracted> {
    match redex.node {
        Node::Application(_) => apply(redex, size),
        Node::Fix(_) => unroll(redex, size),
        Node::Lift(_) => Some(Contracted { size: lift(redex, size), replaced: 0 }),
        Node::Splice(_) => Some(Contracted { size: splice(redex, size), replaced: 0 }),
        Node::Match(_) => match_code(redex, types, size),
        _ => unreachable!("numbers, variables, functions and quotes are no redexes"),
    }
}

fn fitting(size: usize) -> Option<usize> {
    (size <= MAX_RECORDS).then_some(size)
}

fn apply(redex: &mut Term, size: usize) -> Option<Contracted> {
    let Node::Application(pair) = &mut redex.node else { unreachable!("an application") };
    let Node::Function { body, .. } = &mut pair.function.node else { unreachable!("the value of a function type is a function") };
    let [uses] = body.uses();
    let argument_size = pair.argument.size();
    let size = fitting(size - 2 - argument_size + uses * (argument_size - 1))?;
    let mut body = take(body.as_mut());
    let replaced = body.substitute(&mut [Binding { term: take(&mut pair.argument), uses }]);
    *redex = body;
    Some(Contracted { size, replaced })
}

fn unroll(redex: &mut Term, size: usize) -> Option<Contracted> {
    let redex_size = redex.size();
    let Node::Fix(function) = &mut redex.node else { unreachable!("a fix") };
    let Node::Function { body, .. } = &mut function.node else { unreachable!("the value of a function type is a function") };
    let [uses] = body.uses();
    let size = fitting(size - 2 + uses * (redex_size - 1))?;
    let mut unrolled = if uses == 0 { take(body.as_mut()) } else { body.as_ref().clone() };
    let replaced = unrolled.substitute(&mut [Binding { term: take(redex), uses }]);
    *redex = unrolled;
    Some(Contracted { size, replaced })
}

fn lift(redex: &mut Term, size: usize) -> usize {
    let Node::Lift(number) = &mut redex.node else { unreachable!("a lift") };
    let number = take(number.as_mut());
    redex.node = Node::Quote(Box::new(number));
    size
}

fn splice(redex: &mut Term, size: usize) -> usize {
    let Node::Splice(quote) = &mut redex.node else { unreachable!("a splice") };
    *redex = take(quoted(quote));
    size - 2
}

fn quoted(quote: &mut Term) -> &mut Term {
    match &mut quote.node {
        Node::Quote(tree) => tree,
        _ => unreachable!("the value of a code type is a quote"),
    }
}

fn match_code(redex: &mut Term, types: &Types, size: usize) -> Option<Contracted> {
    let Node::Match(parts) = &mut redex.node else { unreachable!("a match") };
    let Match { pattern, code, success, failure } = parts.as_mut();
    let kept = size - 1 - code.size();
    let tree = quoted(code);
    if !pattern.accepts(tree, types) {
        let size = kept - success.size();
        *redex = take(failure);
        return Some(Contracted { size, replaced: 0 });
    }
    let uses: [usize; 2] = success.uses();
    let growth: usize = uses.iter().zip(pattern.bound_sizes(tree)).map(|(uses, size)| uses * (size - 1)).sum();
    let size = fitting(kept - failure.size() + growth)?;
    let mut bindings: Vec<Binding> = pattern.bind(take(tree), types).into_iter().zip(uses).map(|(term, uses)| Binding { term, uses }).collect();
    let mut success = take(success);
    let replaced = success.substitute(&mut bindings);
    *redex = success;
    Some(Contracted { size, replaced })
}

impl Pattern {
    /// Whether a match of quoted code succeeds.
    fn accepts(&self, tree: &Term, types: &Types) -> bool {
        match (self, &tree.node) {
            (Pattern::Number(wanted), Node::Number(value)) => wanted == value,
            (Pattern::Variable(wanted), Node::Variable(index)) => wanted == index,
            (Pattern::Application { argument, .. }, Node::Application(pair)) => types.get(*argument) == Type::Code(pair.argument.ty),
            (Pattern::Lift(_), Node::Number(_)) | (Pattern::Function(_), Node::Function { .. }) | (Pattern::Fix(_), Node::Fix(_)) => true,
            _ => false,
        }
    }

    /// The sizes of what an accepted tree binds; index 0 comes first, and 1 stands where nothing is bound.
    fn bound_sizes(&self, tree: &Term) -> [usize; 2] {
        match (self, &tree.node) {
            (Pattern::Application { .. }, Node::Application(pair)) => [pair.argument.size() + 1, pair.function.size() + 1],
            (Pattern::Function(_), Node::Function { body, .. }) => {
                let [spliced] = body.uses();
                [2 + body.size() + spliced, 1]
            }
            (Pattern::Fix(_), Node::Fix(child)) => [child.size() + 1, 1],
            _ => [1, 1],
        }
    }

    /// What an accepted tree binds; index 0 comes first.
    fn bind(&self, tree: Term, types: &Types) -> Vec<Term> {
        match (*self, tree.node) {
            (Pattern::Application { function, argument }, Node::Application(pair)) => {
                vec![Term::quote(argument, pair.argument), Term::quote(function, pair.function)]
            }
            (Pattern::Lift(_), node) => vec![Term::new(tree.ty, node)],
            (Pattern::Function(ty), Node::Function { body, .. }) => vec![generator(ty, *body, types)],
            (Pattern::Fix(ty), Node::Fix(child)) => vec![Term::quote(ty, *child)],
            _ => Vec::new(),
        }
    }
}

/// The function from code to code that a matched function's body makes.
fn generator(ty: u16, mut body: Term, types: &Types) -> Term {
    let Type::Function(argument, result) = types.get(ty) else { unreachable!("a match function binds a function") };
    body.splice_uses(argument);
    Term::new(ty, Node::Function { argument, body: Box::new(Term::quote(result, body)) })
}
