//! Random well-typed terms, made by type, level and binders.
use super::layout::Tree;
use super::types::{Recipe, Table};
use crate::random::Random;
use crate::reference::format::{kind, Type};

#[derive(Clone, Copy)]
pub struct Binder {
    pub level: usize,
    pub ty: u16,
}

/// What one program prefers.
pub struct Style {
    /// The weight of fixes at level 0.
    pub fix: usize,
    /// The weight of calls of variables at level 0.
    pub call: usize,
    /// The percentage of records that give nearly all their room to one child.
    pub skew: usize,
    /// How many of a thousand terms break a rule of levels and types.
    pub slips: usize,
}

/// Makes terms; every request is for a type of which a term exists under the binders.
pub struct Terms<'a> {
    pub table: &'a Table,
    pub random: &'a mut Random,
    pub binders: Vec<Binder>,
    pub style: Style,
}

impl Terms<'_> {
    /// Whether a term of the type at the level is sure to exist under the binders.
    pub fn exists(&self, ty: u16, level: usize) -> bool {
        self.table.recipe(ty, level).is_some() || self.binders.iter().any(|binder| binder.ty == ty && binder.level == level)
    }

    /// A term of about as many records as there is room for.
    pub fn term(&mut self, ty: u16, level: usize, room: usize) -> Tree {
        if self.random.below(1_000) < self.style.slips {
            return self.slip(ty, level, room);
        }
        if room <= 2 || self.random.below(3 * room) == 0 {
            return self.leaf(ty, level);
        }
        for _ in 0..8 {
            let made = if level == 0 { self.level_0(ty, room) } else { self.level_1(ty, room) };
            if let Some(tree) = made {
                return tree;
            }
        }
        self.introduction(ty, level, room).unwrap_or_else(|| self.leaf(ty, level))
    }

    /// A term at level 0 that mostly is no number or function, so that it has steps to make.
    pub fn running_term(&mut self, ty: u16, room: usize) -> Tree {
        let mut tree = self.term(ty, 0, room);
        for _ in 0..4 {
            if room > 2 && matches!(tree.record.kind, kind::NUMBER | kind::FUNCTION) {
                tree = self.term(ty, 0, room);
            }
        }
        tree
    }

    fn level_0(&mut self, ty: u16, room: usize) -> Option<Tree> {
        let Style { fix, call, .. } = self.style;
        match self.random.weighted(&[3, 18, 26, call, fix, 2 * fix, 6, 30]) {
            0 => self.variable(ty, 0),
            1 => self.structured(ty, 0, room),
            2 => self.application(ty, 0, room),
            3 => self.call(ty, 0, room),
            4 => self.fix(ty, 0, room),
            5 => self.recursion(ty, room),
            6 => self.lift(ty, room),
            _ => self.code_match(ty, room),
        }
    }

    fn level_1(&mut self, ty: u16, room: usize) -> Option<Tree> {
        match self.random.weighted(&[5, 25, 30, 10, 8, 10, 30]) {
            0 => self.variable(ty, 1),
            1 => self.structured(ty, 1, room),
            2 => self.application(ty, 1, room),
            3 => self.call(ty, 1, room),
            4 => self.fix(ty, 1, room),
            5 => self.chain(ty, room),
            _ => self.splice(ty, room),
        }
    }

    /// A variable, or else the cheapest closed term.
    pub fn leaf(&mut self, ty: u16, level: usize) -> Tree {
        if self.table.recipe(ty, level).is_some() && self.random.percent(30) {
            return self.cheapest(ty, level);
        }
        self.variable(ty, level).unwrap_or_else(|| self.cheapest(ty, level))
    }

    fn cheapest(&mut self, ty: u16, level: usize) -> Tree {
        let recipe = self.table.recipe(ty, level).expect("a term of the type exists");
        let child = |terms: &mut Self, ty: u16, level: usize| vec![terms.cheapest(ty, level)];
        match (recipe, self.table.types.get(ty)) {
            (Recipe::Identity, Type::Function(from, to)) => function(ty, from, variable(to, 0)),
            (Recipe::Constant, Type::Function(from, to)) => function(ty, from, self.cheapest(to, level)),
            (Recipe::Quote, Type::Code(part)) => Tree::new(kind::QUOTE, ty, child(self, part, 1)),
            (Recipe::Splice, _) => {
                let code = self.table.code_of(ty).expect("the recipe's type is in the table");
                Tree::new(kind::SPLICE, ty, child(self, code, 0))
            }
            (Recipe::Loop, _) => {
                let endless = self.table.number(Type::Function(ty, ty)).expect("the recipe's type is in the table");
                Tree::new(kind::FIX, ty, vec![function(endless, ty, variable(ty, 0))])
            }
            _ => self.number(ty),
        }
    }

    pub fn number(&mut self, ty: u16) -> Tree {
        let mut tree = Tree::new(kind::NUMBER, ty, Vec::new());
        tree.record.value = self.value();
        tree
    }

    /// Mostly one of few numbers, so that matches succeed.
    pub fn value(&mut self) -> u32 {
        if self.random.percent(90) {
            self.random.below(3) as u32
        } else {
            self.random.number() as u32
        }
    }

    /// The indices of the binders that fulfil a condition.
    pub fn indices(&self, wanted: impl Fn(Binder) -> bool) -> Vec<u16> {
        self.binders.iter().rev().zip(0..).filter(|(&binder, _)| wanted(binder)).map(|(_, index)| index).collect()
    }

    pub fn variable(&mut self, ty: u16, level: usize) -> Option<Tree> {
        let indices = self.indices(|binder| binder.ty == ty && binder.level == level);
        let near = indices.len().min(3);
        let candidates = if self.random.percent(60) { &indices[..near] } else { &indices[..] };
        self.random.pick(candidates).map(|index| variable(ty, index))
    }

    /// The type's own construct: a number, a function or a quote.
    pub fn introduction(&mut self, ty: u16, level: usize, room: usize) -> Option<Tree> {
        match self.table.types.get(ty) {
            Type::Nat => Some(self.number(ty)),
            Type::Function(from, to) => {
                self.binders.push(Binder { level, ty: from });
                let body = self.exists(to, level).then(|| self.term(to, level, room - 1));
                self.binders.pop();
                body.map(|body| function(ty, from, body))
            }
            Type::Code(part) if level == 0 && self.exists(part, 1) => {
                let quoted = self.term(part, 1, room - 1);
                Some(Tree::new(kind::QUOTE, ty, vec![quoted]))
            }
            Type::Code(_) => None,
        }
    }

    /// An introduction that has children.
    fn structured(&mut self, ty: u16, level: usize, room: usize) -> Option<Tree> {
        if self.table.types.is_nat(ty) {
            return None;
        }
        self.introduction(ty, level, room)
    }

    /// Parts of the room for so many children.
    pub fn shares<const N: usize>(&mut self, room: usize) -> [usize; N] {
        let mut shares = [1; N];
        let rest = room.saturating_sub(N + 1);
        if self.random.percent(self.style.skew) {
            shares[self.random.below(N)] += rest;
            return shares;
        }
        let mut cuts = [0; N];
        cuts.fill_with(|| self.random.below(rest + 1));
        cuts[N - 1] = rest;
        cuts.sort_unstable();
        let mut before = 0;
        for (share, cut) in shares.iter_mut().zip(cuts) {
            *share += cut - before;
            before = cut;
        }
        shares
    }

    pub fn application(&mut self, ty: u16, level: usize, room: usize) -> Option<Tree> {
        let arrow = self.random.pick(self.table.arrows_to(ty))?;
        self.application_of(arrow, level, room)
    }

    pub fn application_of(&mut self, arrow: u16, level: usize, room: usize) -> Option<Tree> {
        let Type::Function(from, to) = self.table.types.get(arrow) else { return None };
        if !self.exists(arrow, level) || !self.exists(from, level) {
            return None;
        }
        let [function_room, argument_room] = self.shares(room);
        let function = self.applied(arrow, level, function_room.max(2));
        let chained = if function.record.kind == kind::FIX && level == 0 { self.chained_code(from, argument_room) } else { None };
        let argument = chained.unwrap_or_else(|| self.term(from, level, argument_room));
        Some(Tree::new(kind::APPLICATION, to, vec![function, argument]))
    }

    /// Code of small functions applied one to the other.
    pub fn chain(&mut self, ty: u16, room: usize) -> Option<Tree> {
        let arrow = self.table.number(Type::Function(ty, ty))?;
        let mut tree = self.leaf(ty, 1);
        let mut size = tree.size();
        while size + 2 < room {
            let function = self.term(arrow, 1, 3);
            size += 1 + function.size();
            tree = Tree::new(kind::APPLICATION, ty, vec![function, tree]);
        }
        Some(tree)
    }

    /// The function of an application: often a function itself or a fix that goes through code.
    fn applied(&mut self, arrow: u16, level: usize, room: usize) -> Tree {
        let made = match self.random.below(10) {
            0..=4 => self.introduction(arrow, level, room),
            5..=6 if level == 0 && self.style.fix > 0 => self.recursion(arrow, room),
            _ => None,
        };
        made.unwrap_or_else(|| self.term(arrow, level, room))
    }

    /// A variable applied to an argument that is often a variable too.
    pub fn call(&mut self, ty: u16, level: usize, room: usize) -> Option<Tree> {
        let types = &self.table.types;
        let argument_of = |function: u16| match types.get(function) {
            Type::Function(from, to) if to == ty => Some(from),
            _ => None,
        };
        let callable = self.indices(|binder| binder.level == level && argument_of(binder.ty).is_some_and(|from| self.exists(from, level)));
        let index = self.random.pick(&callable)?;
        let function_type = self.binders[self.binders.len() - 1 - usize::from(index)].ty;
        let argument_type = argument_of(function_type)?;
        let argument = if self.random.percent(50) { self.variable(argument_type, level) } else { None };
        let argument = argument.unwrap_or_else(|| self.term(argument_type, level, room.saturating_sub(2)));
        Some(Tree::new(kind::APPLICATION, ty, vec![variable(function_type, index), argument]))
    }

    pub fn fix(&mut self, ty: u16, level: usize, room: usize) -> Option<Tree> {
        let arrow = self.table.number(Type::Function(ty, ty))?;
        let child = if self.random.percent(85) { self.introduction(arrow, level, room.max(2) - 1) } else { None };
        let child = child.unwrap_or_else(|| self.term(arrow, level, room - 1));
        let endless = level == 0 && child.children.iter().any(|body| body.record.kind == kind::VARIABLE);
        (!endless || self.random.percent(10)).then(|| Tree::new(kind::FIX, ty, vec![child]))
    }

    fn lift(&mut self, ty: u16, room: usize) -> Option<Tree> {
        let part = self.table.types.within_code(ty)?;
        if !self.table.types.is_nat(part) {
            return None;
        }
        let number = self.term(part, 0, room - 1);
        Some(Tree::new(kind::LIFT, ty, vec![number]))
    }

    fn splice(&mut self, ty: u16, room: usize) -> Option<Tree> {
        let code = self.table.code_of(ty)?;
        if !self.exists(code, 0) {
            return None;
        }
        let child = self.term(code, 0, room - 1);
        Some(Tree::new(kind::SPLICE, ty, vec![child]))
    }
}

pub fn variable(ty: u16, index: u16) -> Tree {
    let mut tree = Tree::new(kind::VARIABLE, ty, Vec::new());
    tree.record.a = index;
    tree
}

pub fn function(ty: u16, argument: u16, body: Tree) -> Tree {
    let mut tree = Tree::new(kind::FUNCTION, ty, vec![body]);
    tree.record.a = argument;
    tree
}
