//! A run under way: expressions are worked out and commands followed by plain
//! recursion over the nodes. What is the document's to decide stands in `rules`.

use super::answer::number::FUEL_SPENT;
use super::marks::Mark;
use super::rules::{Assigned, Contexts, Rules};
use super::run::{Mode, Start};
use super::sheet::Sheet;
use super::store::{Marked, Store};
use super::typed::{Command, Expression};
use super::values::Operator;

/// Why and where a run stops.
#[derive(Clone, Copy, Debug, PartialEq, Eq)]
pub struct Stop {
    pub number: u8,
    pub place: usize,
}

/// Puts the place to a number that stops the run.
fn at<T>(place: usize, result: Result<T, u8>) -> Result<T, Stop> {
    result.map_err(|number| Stop { number, place })
}

/// Odd, so that two ways hardly ever have the same number.
const WAY_STEP: u64 = 0x9e37_79b9_7f4a_7c15;

/// Sees each operator that gives a result, with its two values.
pub type Watch<'a> = &'a dyn Fn(Operator, i64, i64);

/// A run under way.
pub struct Run<'a> {
    rules: &'a Rules,
    watch: Watch<'a>,
    sheet: &'a Sheet,
    mode: Mode,
    context: usize,
    pub fuel_left: u32,
    pub store: Store,
    /// The way so far: which tests were met, and how each came out, in one number.
    pub way: u64,
}

impl<'a> Run<'a> {
    pub fn start(rules: &'a Rules, start: &'a Start, watch: Watch<'a>) -> Run<'a> {
        Run {
            rules,
            watch,
            sheet: &start.sheet,
            mode: start.mode,
            context: (rules.first_context)(&start.sheet.levels),
            fuel_left: start.fuel,
            store: start.store.clone(),
            way: 0,
        }
    }
}

impl Run<'_> {
    /// Works out the expression of this node number.
    pub fn expression(&self, node: usize) -> Result<Marked, Stop> {
        let levels = &self.sheet.levels;
        match self.sheet.nodes[node].expression() {
            Expression::Constant { index } => Ok(Marked {
                value: i64::from(self.sheet.constants[index]),
                mark: (self.rules.mark_of_constant)(levels),
            }),
            Expression::Field { field } => Ok(self.store.fields[field]),
            Expression::Operator {
                operator,
                left,
                right,
            } => {
                let (left, right) = (self.rules.both_sides)(self, operator, left, right)?;
                let result = (self.rules.operate)(operator, left.value, right.value);
                let value = at(node, result)?;
                (self.watch)(operator, left.value, right.value);
                Ok(Marked {
                    value,
                    mark: Mark {
                        level: (self.rules.level_of_operator)(levels, left.mark, right.mark),
                        partial: (self.rules.operator_is_partial)(left.mark, right.mark),
                    },
                })
            }
            Expression::Not { of } => self.expression(of).map(|of| Marked {
                value: (self.rules.not)(of.value),
                mark: (self.rules.mark_of_not)(levels, of.mark),
            }),
            Expression::Seal { of } => self.expression(of).map(|of| Marked {
                value: of.value,
                mark: (self.rules.mark_of_seal)(levels, of.mark),
            }),
        }
    }

    /// Follows the command of this node number. Its unit is spent before
    /// anything else of it.
    pub fn command(&mut self, node: usize) -> Result<(), Stop> {
        self.spend(node)?;
        match self.sheet.nodes[node].command() {
            Command::Skip => Ok(()),
            Command::Assignment { field, expression } => self.assign(node, field, expression),
            Command::Sequence { first, second } => {
                self.command(first)?;
                self.command(second)
            }
            Command::If { test, yes, no } => {
                let old = self.context;
                let holds = self.test(node, test)?;
                self.command(if holds { yes } else { no })?;
                self.leave(old);
                Ok(())
            }
            Command::While { test, body } => {
                let old = self.context;
                let mut holds = self.test(node, test)?;
                while holds {
                    self.command(body)?;
                    self.spend(node)?;
                    holds = self.test_again(node, test, old)?;
                }
                self.leave(old);
                Ok(())
            }
        }
    }

    /// Spends a command's units; with none left the run stops there.
    fn spend(&mut self, node: usize) -> Result<(), Stop> {
        let units = (self.rules.units)(self.sheet.nodes[node].command());
        let left = self.fuel_left.checked_sub(units);
        self.fuel_left = at(node, left.ok_or(FUEL_SPENT))?;
        Ok(())
    }

    /// Works out the expression and stores its value under the new mark.
    fn assign(&mut self, node: usize, field: usize, expression: usize) -> Result<(), Stop> {
        let Marked { value, mark } = self.expression(expression)?;
        let assigned = Assigned {
            mark,
            field: self.store.fields[field].mark,
            context: self.context,
        };
        let mark = (self.rules.mark_of_assigned)(&self.sheet.levels, self.mode, assigned);
        self.store.fields[field] = Marked {
            value,
            mark: at(node, mark)?,
        };
        Ok(())
    }

    /// Works out a test and raises the context; says whether the test is true.
    fn test(&mut self, node: usize, test: usize) -> Result<bool, Stop> {
        let Marked { value, mark } = self.expression(test)?;
        let context = (self.rules.context_of_body)(&self.sheet.levels, self.context, mark);
        self.context = at(node, context)?;
        Ok(self.branch(node, value))
    }

    /// The same for each later test of a while.
    fn test_again(&mut self, node: usize, test: usize, old: usize) -> Result<bool, Stop> {
        let Marked { value, mark } = self.expression(test)?;
        let contexts = self.contexts(old);
        let context = (self.rules.context_of_next_round)(&self.sheet.levels, contexts, mark);
        self.context = at(node, context)?;
        Ok(self.branch(node, value))
    }

    /// Says whether a test of this value is true, and keeps it in the way.
    fn branch(&mut self, node: usize, value: i64) -> bool {
        let holds = (self.rules.is_true)(value);
        let branch = 2 * node as u64 + u64::from(holds) + 1;
        self.way = self.way.wrapping_mul(WAY_STEP) ^ branch;
        holds
    }

    fn leave(&mut self, old: usize) {
        self.context = (self.rules.context_afterwards)(self.contexts(old));
    }

    fn contexts(&self, old: usize) -> Contexts {
        Contexts {
            old,
            joined: self.context,
        }
    }
}
