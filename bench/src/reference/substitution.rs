//! Substitution of binders' variables, with the moves of the free indices.
use super::term::{Node, Pattern, Term};

/// What replaces a variable, and how many uses of the variable are left.
pub struct Binding {
    pub term: Term,
    pub uses: usize,
}

impl Binding {
    /// A copy for one use; the last use gets the term itself.
    fn take(&mut self) -> Term {
        self.uses -= 1;
        if self.uses == 0 {
            std::mem::take(&mut self.term)
        } else {
            self.term.clone()
        }
    }
}

impl Term {
    /// Counts the uses of the innermost `N` binders over this term; index 0 comes first.
    pub fn uses<const N: usize>(&self) -> [usize; N] {
        let mut counts = [0; N];
        self.count_uses(0, &mut counts);
        counts
    }

    fn count_uses(&self, depth: u16, counts: &mut [usize]) {
        if let Node::Variable(index) = self.node {
            if let Some(count) = index.checked_sub(depth).and_then(|outward| counts.get_mut(usize::from(outward))) {
                *count += 1;
            }
        }
        self.each_child(|child, binders| child.count_uses(depth + binders, counts));
    }

    /// Replaces the variables of the innermost binders over this term, which are removed; index 0 comes first. Gives how many gave way.
    pub fn substitute(&mut self, bindings: &mut [Binding]) -> u64 {
        if bindings.is_empty() {
            return 0;
        }
        self.substitute_under(0, bindings)
    }

    fn substitute_under(&mut self, depth: u16, bindings: &mut [Binding]) -> u64 {
        let removed = bindings.len() as u16;
        let mut replaced = 0;
        match &mut self.node {
            Node::Variable(index) if *index < depth => {}
            Node::Variable(index) if *index < depth + removed => {
                let mut replacement = bindings[usize::from(*index - depth)].take();
                replacement.raise(depth);
                *self = replacement;
                replaced = 1;
            }
            Node::Variable(index) => *index -= removed,
            _ => {
                if let Some(index) = self.matched_index() {
                    *index -= if *index < depth { 0 } else { removed };
                }
                self.each_child_mut(|child, binders| replaced += child.substitute_under(depth + binders, bindings));
            }
        }
        replaced
    }

    /// Raises the free indices, for a term that is put under more binders.
    fn raise(&mut self, by: u16) {
        if by > 0 {
            self.raise_under(0, by);
        }
    }

    fn raise_under(&mut self, depth: u16, by: u16) {
        let index = match &mut self.node {
            Node::Variable(index) => Some(index),
            _ => self.matched_index(),
        };
        if let Some(index) = index {
            *index += if *index < depth { 0 } else { by };
        }
        self.each_child_mut(|child, binders| child.raise_under(depth + binders, by));
    }

    /// The index of a match variable, which moves with the free indices and is never replaced.
    fn matched_index(&mut self) -> Option<&mut u16> {
        match &mut self.node {
            Node::Match(parts) => match &mut parts.pattern {
                Pattern::Variable(index) => Some(index),
                _ => None,
            },
            _ => None,
        }
    }

    /// Wraps each use of the innermost binder over this term in a splice; the variable within has the type `code`.
    pub fn splice_uses(&mut self, code: u16) {
        self.splice_uses_under(0, code);
    }

    fn splice_uses_under(&mut self, depth: u16, code: u16) {
        match self.node {
            Node::Variable(index) if index == depth => {
                self.node = Node::Splice(Box::new(Term::new(code, Node::Variable(index))));
            }
            _ => self.each_child_mut(|child, binders| child.splice_uses_under(depth + binders, code)),
        }
    }
}
