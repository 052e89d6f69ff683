//! Nodes that are right, as the expressions and commands that they are.
//! Children are told by their node numbers.

use super::sheet::Node;
use super::values::{Operator, OPERATORS};

/// Kinds 0 to 4.
#[derive(Clone, Copy, Debug, PartialEq, Eq)]
pub enum Expression {
    Constant {
        index: usize,
    },
    Field {
        field: usize,
    },
    Operator {
        operator: Operator,
        left: usize,
        right: usize,
    },
    Not {
        of: usize,
    },
    Seal {
        of: usize,
    },
}

/// Kinds 5 to 9.
#[derive(Clone, Copy, Debug, PartialEq, Eq)]
pub enum Command {
    Skip,
    Assignment { field: usize, expression: usize },
    Sequence { first: usize, second: usize },
    If { test: usize, yes: usize, no: usize },
    While { test: usize, body: usize },
}

impl Node {
    /// The expression that the node is.
    pub fn expression(&self) -> Expression {
        let [a, b, _] = self.places.map(usize::from);
        match self.kind {
            0 => Expression::Constant { index: a },
            1 => Expression::Field { field: a },
            2 => Expression::Operator {
                operator: OPERATORS[usize::from(self.operator)],
                left: a,
                right: b,
            },
            3 => Expression::Not { of: a },
            4 => Expression::Seal { of: a },
            kind => panic!("kind {kind} is no expression"),
        }
    }

    /// The command that the node is.
    pub fn command(&self) -> Command {
        let [a, b, c] = self.places.map(usize::from);
        match self.kind {
            5 => Command::Skip,
            6 => Command::Assignment {
                field: a,
                expression: b,
            },
            7 => Command::Sequence {
                first: a,
                second: b,
            },
            8 => Command::If {
                test: a,
                yes: b,
                no: c,
            },
            9 => Command::While { test: a, body: b },
            kind => panic!("kind {kind} is no command"),
        }
    }
}
