//! Regular expressions and their Brzozowski derivatives, in a normal form that leaves each expression finitely many.

use reference::Item;
use std::collections::HashMap;

/// The number of an expression among those met so far.
pub type Id = usize;

const NOTHING: Id = 0;
const EMPTY: Id = 1;

#[derive(Clone, PartialEq, Eq, Hash)]
enum Expression {
    /// Matches no string.
    Nothing,
    /// Matches the empty string alone.
    Empty,
    /// Matches each string of one event of the set, which is not empty.
    Events(u32),
    /// Neither operand is nothing or empty, and the first is no sequence.
    Sequence(Id, Id),
    /// Two members or more, ascending, none of them nothing or a choice.
    Choice(Vec<Id>),
    Star(Id),
}

/// Whether the empty string belongs to the language of these items; none where they are no expression.
pub fn has_empty_string(items: &[Item]) -> Option<bool> {
    let mut expressions = Expressions::new();
    let whole = expressions.of_items(items)?;
    Some(expressions.nullable(whole))
}

/// All expressions met so far, each one once.
pub struct Expressions {
    met: Vec<Expression>,
    nullable: Vec<bool>,
    ids: HashMap<Expression, Id>,
    derivatives: HashMap<(Id, u32), Id>,
}

impl Expressions {
    pub fn new() -> Self {
        let mut fresh = Expressions {
            met: Vec::new(),
            nullable: Vec::new(),
            ids: HashMap::new(),
            derivatives: HashMap::new(),
        };
        fresh.intern(Expression::Nothing);
        fresh.intern(Expression::Empty);
        fresh
    }

    /// The expression of a pattern, built from its postfix items.
    pub fn of_items(&mut self, items: &[Item]) -> Option<Id> {
        let mut operands = Vec::new();
        for item in items {
            let built = match *item {
                Item::Empty => EMPTY,
                Item::Events(set) => self.events(set),
                Item::Sequence => {
                    let (newer, older) = (operands.pop()?, operands.pop()?);
                    self.sequence(older, newer)
                }
                Item::Choice => {
                    let (newer, older) = (operands.pop()?, operands.pop()?);
                    self.choice(older, newer)
                }
                Item::Star => {
                    let operand = operands.pop()?;
                    self.star(operand)
                }
            };
            operands.push(built);
        }
        let whole = operands.pop()?;
        operands.is_empty().then_some(whole)
    }

    /// Whether the empty string belongs to the language.
    pub fn nullable(&self, id: Id) -> bool {
        self.nullable[id]
    }

    /// The expression of all strings that, put behind `event`, belong to the language.
    pub fn derivative(&mut self, id: Id, event: u32) -> Id {
        if let Some(&known) = self.derivatives.get(&(id, event)) {
            return known;
        }
        let derived = match self.met[id].clone() {
            Expression::Nothing | Expression::Empty => NOTHING,
            Expression::Events(set) if set >> event & 1 == 1 => EMPTY,
            Expression::Events(_) => NOTHING,
            Expression::Sequence(first, rest) => {
                let within = self.derivative(first, event);
                let ahead = self.sequence(within, rest);
                if self.nullable(first) {
                    let skipped = self.derivative(rest, event);
                    self.choice(ahead, skipped)
                } else {
                    ahead
                }
            }
            Expression::Choice(members) => members.into_iter().fold(NOTHING, |sum, member| {
                let derived = self.derivative(member, event);
                self.choice(sum, derived)
            }),
            Expression::Star(operand) => {
                let within = self.derivative(operand, event);
                self.sequence(within, id)
            }
        };
        self.derivatives.insert((id, event), derived);
        derived
    }

    fn events(&mut self, set: u32) -> Id {
        if set == 0 {
            return NOTHING;
        }
        self.intern(Expression::Events(set))
    }

    fn sequence(&mut self, first: Id, rest: Id) -> Id {
        if first == NOTHING || rest == NOTHING {
            return NOTHING;
        }
        if first == EMPTY {
            return rest;
        }
        if rest == EMPTY {
            return first;
        }
        if let Expression::Sequence(head, tail) = self.met[first] {
            let rest = self.sequence(tail, rest);
            return self.sequence(head, rest);
        }
        self.intern(Expression::Sequence(first, rest))
    }

    fn choice(&mut self, one: Id, other: Id) -> Id {
        let mut members = self.members(one);
        members.extend(self.members(other));
        members.sort_unstable();
        members.dedup();
        match members[..] {
            [] => NOTHING,
            [single] => single,
            _ => self.intern(Expression::Choice(members)),
        }
    }

    fn star(&mut self, operand: Id) -> Id {
        match self.met[operand] {
            Expression::Nothing | Expression::Empty => EMPTY,
            Expression::Star(_) => operand,
            _ => self.intern(Expression::Star(operand)),
        }
    }

    /// What a choice chooses from; of any other expression, itself.
    fn members(&self, id: Id) -> Vec<Id> {
        match &self.met[id] {
            Expression::Nothing => Vec::new(),
            Expression::Choice(members) => members.clone(),
            _ => vec![id],
        }
    }

    fn intern(&mut self, expression: Expression) -> Id {
        if let Some(&known) = self.ids.get(&expression) {
            return known;
        }
        let id = self.met.len();
        self.nullable.push(match &expression {
            Expression::Nothing | Expression::Events(_) => false,
            Expression::Empty | Expression::Star(_) => true,
            Expression::Sequence(first, rest) => self.nullable[*first] && self.nullable[*rest],
            Expression::Choice(members) => members.iter().any(|&member| self.nullable[member]),
        });
        self.met.push(expression.clone());
        self.ids.insert(expression, id);
        id
    }
}
