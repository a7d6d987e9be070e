//! A term as an owned tree.
use super::format::{kind, Program};

#[derive(Clone, Debug, PartialEq, Eq)]
pub struct Term {
    pub ty: u16,
    pub node: Node,
}

#[derive(Clone, Debug, PartialEq, Eq)]
pub enum Node {
    Number(u32),
    Variable(u16),
    Function { argument: u16, body: Box<Term> },
    Application(Box<Application>),
    Fix(Box<Term>),
    Lift(Box<Term>),
    Quote(Box<Term>),
    Splice(Box<Term>),
    Match(Box<Match>),
}

#[derive(Clone, Debug, PartialEq, Eq)]
pub struct Application {
    pub function: Term,
    pub argument: Term,
}

#[derive(Clone, Debug, PartialEq, Eq)]
pub struct Match {
    pub pattern: Pattern,
    pub code: Term,
    pub success: Term,
    pub failure: Term,
}

/// The kind of a match, with the number, index or types of its own fields.
#[derive(Clone, Copy, Debug, PartialEq, Eq)]
pub enum Pattern {
    Number(u32),
    Variable(u16),
    Application { function: u16, argument: u16 },
    Lift(u16),
    Function(u16),
    Fix(u16),
}

impl Pattern {
    /// How many variables it binds over success.
    pub fn binders(&self) -> usize {
        match self {
            Pattern::Number(_) | Pattern::Variable(_) => 0,
            Pattern::Application { .. } => 2,
            Pattern::Lift(_) | Pattern::Function(_) | Pattern::Fix(_) => 1,
        }
    }
}

/// What stays behind where a term has been moved out of its place.
impl Default for Term {
    fn default() -> Term {
        Term::new(0, Node::Number(0))
    }
}

impl Term {
    pub fn new(ty: u16, node: Node) -> Term {
        Term { ty, node }
    }

    pub fn quote(ty: u16, code: Term) -> Term {
        Term::new(ty, Node::Quote(Box::new(code)))
    }

    /// The tree of a record of a checked program.
    pub fn of_record(program: &Program, number: u16) -> Term {
        let record = program.record(number);
        let mut children = program.children(number).map(|child| Term::of_record(program, child));
        let mut child = || children.next().expect("the number of children is checked");
        let node = match record.kind {
            kind::NUMBER => Node::Number(record.value),
            kind::VARIABLE => Node::Variable(record.a),
            kind::FUNCTION => Node::Function { argument: record.a, body: Box::new(child()) },
            kind::APPLICATION => Node::Application(Box::new(Application { function: child(), argument: child() })),
            kind::FIX => Node::Fix(Box::new(child())),
            kind::LIFT => Node::Lift(Box::new(child())),
            kind::QUOTE => Node::Quote(Box::new(child())),
            kind::SPLICE => Node::Splice(Box::new(child())),
            match_kind => {
                let pattern = match match_kind {
                    kind::MATCH_NUMBER => Pattern::Number(record.value),
                    kind::MATCH_VARIABLE => Pattern::Variable(record.a),
                    kind::MATCH_APPLICATION => Pattern::Application { function: record.a, argument: record.b },
                    kind::MATCH_LIFT => Pattern::Lift(record.a),
                    kind::MATCH_FUNCTION => Pattern::Function(record.a),
                    _ => Pattern::Fix(record.a),
                };
                Node::Match(Box::new(Match { pattern, code: child(), success: child(), failure: child() }))
            }
        };
        Term::new(record.ty, node)
    }

    /// The number of records.
    pub fn size(&self) -> usize {
        let mut size = 1;
        self.each_child(|child, _| size += child.size());
        size
    }

    /// Visits the children in order, each with the number of binders that the record puts over it.
    pub fn each_child<'a>(&'a self, mut visit: impl FnMut(&'a Term, u16)) {
        match &self.node {
            Node::Number(_) | Node::Variable(_) => {}
            Node::Function { body, .. } => visit(body, 1),
            Node::Application(pair) => {
                visit(&pair.function, 0);
                visit(&pair.argument, 0);
            }
            Node::Fix(child) | Node::Lift(child) | Node::Quote(child) | Node::Splice(child) => visit(child, 0),
            Node::Match(parts) => {
                visit(&parts.code, 0);
                visit(&parts.success, parts.pattern.binders() as u16);
                visit(&parts.failure, 0);
            }
        }
    }

    /// As `each_child`, lending the children to be changed.
    pub fn each_child_mut(&mut self, mut visit: impl FnMut(&mut Term, u16)) {
        match &mut self.node {
            Node::Number(_) | Node::Variable(_) => {}
            Node::Function { body, .. } => visit(body, 1),
            Node::Application(pair) => {
                visit(&mut pair.function, 0);
                visit(&mut pair.argument, 0);
            }
            Node::Fix(child) | Node::Lift(child) | Node::Quote(child) | Node::Splice(child) => visit(child, 0),
            Node::Match(parts) => {
                visit(&mut parts.code, 0);
                visit(&mut parts.success, parts.pattern.binders() as u16);
                visit(&mut parts.failure, 0);
            }
        }
    }
}
