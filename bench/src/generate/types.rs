//! Random type tables, and what term generation asks of a table.
use crate::random::Random;
use crate::reference::format::{Type, Types, MAX_TYPES};
use std::collections::HashMap;

/// A way to build the cheapest closed term of a type at a level.
#[derive(Clone, Copy)]
pub enum Recipe {
    Number,
    Identity,
    Constant,
    Quote,
    Splice,
    Loop,
}

/// The types of a match that binds variables, with the code type that it takes apart.
#[derive(Clone, Copy)]
pub struct MatchTypes {
    pub code: u16,
    pub a: u16,
    pub b: u16,
}

/// A type table with the answers that term generation needs.
pub struct Table {
    pub types: Types,
    pub applications: Vec<MatchTypes>,
    pub functions: Vec<MatchTypes>,
    pub fixes: Vec<MatchTypes>,
    numbers: HashMap<Type, u16>,
    arrows_to: Vec<Vec<u16>>,
    cheapest: [Vec<Option<(u32, Recipe)>>; 2],
}

impl Table {
    pub fn random(random: &mut Random) -> Table {
        let limit = match random.weighted(&[5, 25, 60, 10]) {
            0 => 1,
            1 => random.between(2, 8),
            2 => random.between(9, 40),
            _ => random.between(41, MAX_TYPES),
        };
        let mut draft = Draft { types: vec![Type::Nat], limit };
        for _ in 0..4 * limit {
            draft.grow(random);
        }
        Table::new(shuffled(&draft.types, random))
    }

    fn new(types: Vec<Type>) -> Table {
        let numbers: HashMap<Type, u16> = types.iter().zip(1..).map(|(&ty, number)| (ty, number)).collect();
        let mut table = Table {
            cheapest: [vec![None; types.len()], vec![None; types.len()]],
            arrows_to: vec![Vec::new(); types.len()],
            types: Types(types),
            applications: Vec::new(),
            functions: Vec::new(),
            fixes: Vec::new(),
            numbers,
        };
        for number in table.all() {
            if let Type::Function(from, to) = table.types.get(number) {
                table.arrows_to[usize::from(to) - 1].push(number);
                table.add_matches(number, from, to);
            }
        }
        while table.improve_recipes() {}
        table
    }

    /// The numbers of all entries.
    pub fn all(&self) -> std::ops::RangeInclusive<u16> {
        1..=self.types.0.len() as u16
    }

    pub fn number(&self, ty: Type) -> Option<u16> {
        self.numbers.get(&ty).copied()
    }

    pub fn code_of(&self, part: u16) -> Option<u16> {
        self.number(Type::Code(part))
    }

    /// The function types with this result.
    pub fn arrows_to(&self, result: u16) -> &[u16] {
        &self.arrows_to[usize::from(result) - 1]
    }

    /// How to build a closed term of the type at the level, where there is one.
    pub fn recipe(&self, ty: u16, level: usize) -> Option<Recipe> {
        self.cheapest[level][usize::from(ty) - 1].map(|(_, recipe)| recipe)
    }

    /// Notes the matches that a function type makes possible.
    fn add_matches(&mut self, number: u16, from: u16, to: u16) {
        let Some(quoted) = self.code_of(number) else { return };
        let (from_code, to_code) = (self.code_of(from), self.code_of(to));
        if let (Some(b), Some(code)) = (from_code, to_code) {
            self.applications.push(MatchTypes { code, a: quoted, b });
            if let Some(a) = self.number(Type::Function(b, code)) {
                self.functions.push(MatchTypes { code: quoted, a, b: 0 });
            }
        }
        if let (true, Some(code)) = (from == to, to_code) {
            self.fixes.push(MatchTypes { code, a: quoted, b: 0 });
        }
    }

    /// Goes once through all types; says whether any got a cheaper recipe.
    fn improve_recipes(&mut self) -> bool {
        let mut improved = false;
        for level in [0, 1] {
            for number in self.all() {
                let best = self.candidates(number, level).into_iter().flatten().min_by_key(|&(cost, _)| cost);
                let known = &mut self.cheapest[level][usize::from(number) - 1];
                if let Some((cost, _)) = best {
                    if known.is_none_or(|(known_cost, _)| cost < known_cost) {
                        *known = best;
                        improved = true;
                    }
                }
            }
        }
        improved
    }

    fn candidates(&self, number: u16, level: usize) -> [Option<(u32, Recipe)>; 3] {
        let cost = |ty: u16, level: usize| self.cheapest[level][usize::from(ty) - 1].map(|(cost, _)| cost + 1);
        let introduced = match self.types.get(number) {
            Type::Nat => Some((1, Recipe::Number)),
            Type::Function(from, to) if from == to => Some((2, Recipe::Identity)),
            Type::Function(_, to) => cost(to, level).map(|cost| (cost, Recipe::Constant)),
            Type::Code(part) if level == 0 => cost(part, 1).map(|cost| (cost, Recipe::Quote)),
            Type::Code(_) => None,
        };
        let looped = self.number(Type::Function(number, number)).map(|_| (if level == 0 { 60 } else { 3 }, Recipe::Loop));
        let spliced = self.code_of(number).filter(|_| level == 1).and_then(|code| cost(code, 0)).map(|cost| (cost, Recipe::Splice));
        [introduced, looped, spliced]
    }
}

/// A table in the making: parts come before what is made of them, and nothing comes twice.
struct Draft {
    types: Vec<Type>,
    limit: usize,
}

impl Draft {
    /// The number of a type, which is added where it is missing and there is room.
    fn add(&mut self, ty: Type) -> Option<u16> {
        let index = self.types.iter().position(|&known| known == ty).or_else(|| {
            let room = self.types.len() < self.limit;
            room.then(|| self.types.push(ty)).map(|()| self.types.len() - 1)
        })?;
        Some(index as u16 + 1)
    }

    /// A type that is there, rather an early one.
    fn some(&self, random: &mut Random) -> u16 {
        let count = self.types.len();
        random.below(count).min(random.below(count)) as u16 + 1
    }

    fn grow(&mut self, random: &mut Random) {
        let (p, q) = (self.some(random), self.some(random));
        match random.weighted(&[30, 20, 25, 15, 10]) {
            0 => self.add_function_family(p, q),
            1 => self.add_fix_family(p),
            2 => self.add_recursion_family(p, q),
            3 => self.add(Type::Function(p, q)),
            _ => self.add(Type::Code(p)),
        };
    }

    /// What matches of functions and applications of this type need.
    fn add_function_family(&mut self, p: u16, q: u16) -> Option<u16> {
        let function = self.add(Type::Function(p, q))?;
        let (from, to) = (self.add(Type::Code(p))?, self.add(Type::Code(q))?);
        self.add(Type::Code(function))?;
        self.add(Type::Function(from, to))
    }

    /// What a fix of this type and a match of its code need.
    fn add_fix_family(&mut self, p: u16) -> Option<u16> {
        let function = self.add(Type::Function(p, p))?;
        self.add(Type::Code(p))?;
        self.add(Type::Code(function))
    }

    /// What a fix that goes through code of a type needs.
    fn add_recursion_family(&mut self, p: u16, q: u16) -> Option<u16> {
        let code = self.add(Type::Code(p))?;
        let function = self.add(Type::Function(code, q))?;
        self.add(Type::Function(function, function))
    }
}

/// The same types in a random order in which parts still come earlier.
fn shuffled(types: &[Type], random: &mut Random) -> Vec<Type> {
    let mut numbers = vec![0_u16; types.len()];
    let mut order = Vec::with_capacity(types.len());
    let mut waiting: Vec<usize> = (0..types.len()).collect();
    while !waiting.is_empty() {
        let chosen = random.below(waiting.len());
        let number = |part: u16| Some(numbers[usize::from(part) - 1]).filter(|&number| number != 0);
        let renumbered = match types[waiting[chosen]] {
            Type::Nat => Some(Type::Nat),
            Type::Function(a, b) => number(a).zip(number(b)).map(|(a, b)| Type::Function(a, b)),
            Type::Code(a) => number(a).map(Type::Code),
        };
        if let Some(ty) = renumbered {
            order.push(ty);
            numbers[waiting.swap_remove(chosen)] = order.len() as u16;
        }
    }
    order
}
