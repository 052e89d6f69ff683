//! Numbers for the nodes of a tree: any in which children are lower than their
//! parents and the top of the tree is last.

use crate::random::Random;

/// Where something grows or is numbered next.
#[derive(Clone, Copy)]
pub enum Habit {
    Anywhere,
    Newest,
    Oldest,
}

impl Habit {
    pub fn any(random: &mut Random) -> Habit {
        random.pick(&[Habit::Anywhere, Habit::Newest, Habit::Oldest])
    }

    /// Takes one of a list; mostly after the habit.
    pub fn take(self, list: &mut Vec<usize>, random: &mut Random) -> usize {
        let place = match self {
            Habit::Newest if !random.once_in(8) => list.len() - 1,
            Habit::Oldest if !random.once_in(8) => 0,
            _ => random.below(list.len()),
        };
        list.remove(place)
    }
}

/// The number of each node of a tree whose top is node 0, from the last number
/// down, parents before children.
pub fn numbers<'a>(
    nodes: usize,
    children: impl Fn(usize) -> &'a [usize],
    random: &mut Random,
) -> Vec<usize> {
    let habit = Habit::any(random);
    let mut number_of = vec![0; nodes];
    let mut ready = vec![0];
    for number in (0..nodes).rev() {
        let id = habit.take(&mut ready, random);
        number_of[id] = number;
        ready.extend(children(id));
    }
    number_of
}
