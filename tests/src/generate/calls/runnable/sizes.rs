//! Whole commands of all sizes: short, long and deep ones, and single loops.

use super::Maker;
use crate::generate::calls::draft::*;
use crate::generate::valid::{MOST_DEPTH, MOST_NODES};
use crate::model::values::Operator;

/// How many commands of commands stand in each other.
const ROOM: usize = 4;

impl Maker<'_> {
    /// The whole command, within the limits of a sheet.
    pub(super) fn whole(&mut self) -> Draft {
        loop {
            let whole = self.any_size();
            if whole.nodes <= MOST_NODES && whole.height <= MOST_DEPTH {
                return whole;
            }
        }
    }

    fn any_size(&mut self) -> Draft {
        match self.random.below(40) {
            0 | 1 => self.deep(),
            2 => self.long(),
            3 => self.endless(),
            4 => self.counting(),
            5 | 6 => self.command(ROOM),
            _ => {
                let most = self.random.pick(&[2, 4, 8]);
                self.block(most, ROOM)
            }
        }
    }

    /// A loop that only fuel stops.
    fn endless(&mut self) -> Draft {
        let test = self.always();
        let body = match self.random.once_in(2) {
            true => skip(),
            false => assignment(self.any_field(), self.leaf()),
        };
        rounds(test, body)
    }

    /// A loop that counts to its end, over a body that seldom stops the run.
    fn counting(&mut self) -> Draft {
        let counter = self.any_field();
        let most = self.random.pick(&[200, 600]);
        let end = self.random.between(2, most) as i32;
        let test = operator(Operator::Less, field(counter), self.constant(end));
        let up = self.arithmetic(Operator::Plus, counter, 1);
        let body = sequence(self.simple_leaf(), assignment(counter, up));
        sequence(assignment(counter, self.constant(0)), rounds(test, body))
    }

    /// Many commands one after another.
    fn long(&mut self) -> Draft {
        let count = self.random.between(20, 120);
        let commands = (0..count).map(|_| match self.random.once_in(6) {
            true => self.branch(0),
            false => self.simple(),
        });
        let commands = commands.collect();
        in_sequence(commands, self.random)
    }

    /// Commands in commands, or expressions in expressions, to any depth.
    fn deep(&mut self) -> Draft {
        let depth = match self.random.once_in(2) {
            true => MOST_DEPTH,
            false => self.random.between(8, MOST_DEPTH),
        };
        let of_expressions = self.random.between(0, depth - 2);
        let mut inner = self.leaf();
        while inner.height < of_expressions {
            inner = self.around_expression(inner);
        }
        let mut deep = match self.random.once_in(2) {
            true => branch(inner, skip(), self.simple_leaf()),
            false => assignment(self.any_field(), inner),
        };
        while deep.height < depth {
            deep = self.around_command(deep, depth);
        }
        deep
    }

    /// One deeper; products and quotients are left out, so that runs get far.
    fn around_expression(&mut self, inner: Draft) -> Draft {
        let quiet = [
            Operator::Plus,
            Operator::Minus,
            Operator::Equal,
            Operator::Less,
            Operator::AtMost,
            Operator::And,
            Operator::Or,
        ];
        let any = self.random.pick(&quiet);
        match self.random.below(8) {
            0 => not(inner),
            1 => seal(inner),
            2..5 => operator(any, self.leaf(), inner),
            _ => operator(any, inner, self.leaf()),
        }
    }

    /// One deeper, or two with a loop of one round.
    fn around_command(&mut self, inner: Draft, depth: usize) -> Draft {
        match self.random.below(8) {
            0 | 1 => sequence(inner, self.simple_leaf()),
            2 | 3 => sequence(self.simple_leaf(), inner),
            4 => branch(self.constant(0), skip(), inner),
            5 => branch(self.constant(1), inner, self.simple_leaf()),
            6 => branch(field(self.any_field()), inner, self.simple_leaf()),
            _ if inner.height + 2 <= depth => {
                let once = self.any_field();
                let end = assignment(once, self.constant(0));
                rounds(field(once), sequence(inner, end))
            }
            _ => rounds(self.constant(0), inner),
        }
    }

    /// A skip, or an assignment of a leaf.
    fn simple_leaf(&mut self) -> Draft {
        match self.random.once_in(2) {
            true => skip(),
            false => assignment(self.any_field(), self.leaf()),
        }
    }
}
