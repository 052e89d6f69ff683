//! Single commands, the more of them in each other the more room there is.

use super::Maker;
use crate::generate::calls::draft::*;
use crate::model::values::Operator;

impl Maker<'_> {
    /// One to so many commands in sequence.
    pub(super) fn block(&mut self, most: usize, room: usize) -> Draft {
        let count = self.random.between(1, most);
        let commands = (0..count).map(|_| self.command(room)).collect();
        in_sequence(commands, self.random)
    }

    pub(super) fn command(&mut self, room: usize) -> Draft {
        match self.random.below(16) {
            0..7 => self.assignment(),
            7..12 if room > 0 => self.branch(room - 1),
            12..14 if room > 0 => self.rounds(room - 1),
            14 if room > 0 => self.block(4, room - 1),
            _ => self.simple(),
        }
    }

    /// A skip or an assignment.
    pub(super) fn simple(&mut self) -> Draft {
        match self.random.once_in(3) {
            true => skip(),
            false => self.assignment(),
        }
    }

    fn assignment(&mut self) -> Draft {
        let field = self.any_field();
        let expression = match self.random.below(10) {
            0..3 => self.leaf(),
            3 => self.stepped(field),
            4 => self.at_an_end(),
            5 | 6 => self.division_at_an_end(),
            _ => self.expression(3),
        };
        assignment(field, expression)
    }

    pub(super) fn branch(&mut self, room: usize) -> Draft {
        let test = self.test();
        let yes = self.block(2, room);
        let no = match self.random.once_in(2) {
            true => skip(),
            false => self.block(2, room),
        };
        match self.random.once_in(5) {
            true => branch(test, no, yes),
            false => branch(test, yes, no),
        }
    }

    /// A loop: counted up or down, one that halves or grows, an endless one, or any.
    fn rounds(&mut self, room: usize) -> Draft {
        let counter = self.any_field();
        match self.random.below(12) {
            0..3 => self.counted_up(counter, room),
            3..5 => {
                let down = self.arithmetic(Operator::Minus, counter, 1);
                self.counted(field(counter), assignment(counter, down), room)
            }
            5 => {
                let by = self.random.pick(&[2, 3, -2]);
                let half = self.arithmetic(Operator::Divide, counter, by);
                rounds(field(counter), assignment(counter, half))
            }
            6 => self.growing(counter),
            7 | 8 => {
                let test = self.always();
                rounds(test, self.block(3, room))
            }
            9 => rounds(self.constant(0), self.simple()),
            _ => rounds(self.test(), self.block(3, room)),
        }
    }

    /// while counter < end do (body; counter := counter + step), or at most.
    fn counted_up(&mut self, counter: usize, room: usize) -> Draft {
        let compare = self.random.pick(&[Operator::Less, Operator::AtMost]);
        let end = self.random.between(0, 6) as i32;
        let step = self.random.between(1, 2) as i32;
        let test = operator(compare, field(counter), self.constant(end));
        let up = self.arithmetic(Operator::Plus, counter, step);
        let counted = self.counted(test, assignment(counter, up), room);
        match self.random.once_in(2) {
            true => sequence(assignment(counter, self.constant(0)), counted),
            false => counted,
        }
    }

    /// A loop whose body ends, or begins, with a step.
    fn counted(&mut self, test: Draft, step: Draft, room: usize) -> Draft {
        let body = self.block(2, room);
        match self.random.once_in(4) {
            true => rounds(test, sequence(step, body)),
            false => rounds(test, sequence(body, step)),
        }
    }

    /// A loop that runs to an end of the range, and now and then past it.
    fn growing(&mut self, counter: usize) -> Draft {
        let by = self.random.pick(&[2, 3, -2, 10, 65_536]);
        let most = self.random.pick(&[1_000, i32::MAX, i32::MAX - 1]);
        let test = operator(Operator::Less, field(counter), self.constant(most));
        let grown = self.arithmetic(Operator::Times, counter, by);
        let more = operator(Operator::Plus, grown, self.constant(1));
        rounds(test, assignment(counter, more))
    }

    pub(super) fn always(&mut self) -> Draft {
        match self.random.below(3) {
            0 => not(self.constant(0)),
            1 => {
                let same = self.any_field();
                operator(Operator::Equal, field(same), field(same))
            }
            _ => self.constant(1),
        }
    }
}
