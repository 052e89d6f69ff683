//! Random trees of nodes with a wanted count and depth. First a branch of that
//! depth grows, then inner nodes anywhere until the count is reached, then the
//! open ends become leaves.

use super::numbering::{numbers, Habit};
use crate::model::nodes::{Place, Sort, KINDS};
use crate::model::sheet::Node;
use crate::random::Random;

/// What tree is wanted.
#[derive(Clone, Debug)]
pub struct Plan {
    /// The sort of the last node.
    pub last: Sort,
    /// The count of nodes, at least `depth`.
    pub nodes: usize,
    /// The depth that the tree reaches.
    pub depth: usize,
    /// The depth that it doesn't pass.
    pub most_depth: usize,
    /// How many fields and constants there are to name.
    pub fields: usize,
    pub constants: usize,
}

/// A node of a growing tree; it has a kind once it has grown.
struct Branch {
    sort: Sort,
    depth: usize,
    kind: usize,
    children: Vec<usize>,
}

/// A tree with open ends, which count as nodes already.
struct Growing {
    branches: Vec<Branch>,
    open: Vec<usize>,
}

/// A random tree after the plan.
pub fn tree(plan: &Plan, random: &mut Random) -> Vec<Node> {
    let mut growing = Growing::start(plan.last);
    growing.reach_depth(plan, random);
    growing.reach_count(plan, random);
    growing.close(plan, random);
    growing.numbered(plan, random)
}

/// The kinds of a sort with at least 1 and at most this many children.
fn inner_kinds(sort: Sort, most_children: usize) -> Vec<usize> {
    let fits = |&kind: &usize| {
        KINDS[kind].sort == sort && (1..=most_children).contains(&KINDS[kind].children())
    };
    (0..KINDS.len()).filter(fits).collect()
}

/// The kinds of a sort without children; a constant needs one to name.
fn leaf_kinds(sort: Sort, constants: usize) -> Vec<usize> {
    let fits = |&kind: &usize| {
        let names_nothing = KINDS[kind].places.contains(&Place::Constant) && constants == 0;
        KINDS[kind].sort == sort && KINDS[kind].children() == 0 && !names_nothing
    };
    (0..KINDS.len()).filter(fits).collect()
}

impl Growing {
    fn start(last: Sort) -> Growing {
        let mut growing = Growing {
            branches: Vec::new(),
            open: Vec::new(),
        };
        growing.open_end(last, 1);
        growing
    }

    fn open_end(&mut self, sort: Sort, depth: usize) -> usize {
        let id = self.branches.len();
        self.branches.push(Branch {
            sort,
            depth,
            kind: 0,
            children: Vec::new(),
        });
        self.open.push(id);
        id
    }

    /// Gives an end its kind and opens its children.
    fn grow(&mut self, id: usize, kind: usize) {
        self.branches[id].kind = kind;
        let depth = self.branches[id].depth + 1;
        for place in KINDS[kind].places {
            if let Place::Child(sort) = place {
                let child = self.open_end(sort, depth);
                self.branches[id].children.push(child);
            }
        }
    }

    /// Grows one branch to the wanted depth, as commands for long or at random.
    fn reach_depth(&mut self, plan: &Plan, random: &mut Random) {
        let commands = random.once_in(2);
        for depth in 1..plan.depth {
            let id = self.open.pop().expect("the end of the branch");
            let still_to_come = plan.depth - depth - 1;
            let most_children = plan.nodes - self.branches.len() - still_to_come;
            let mut kinds = inner_kinds(self.branches[id].sort, most_children);
            if commands && kinds.iter().any(|&kind| has_a_command(kind)) {
                kinds.retain(|&kind| has_a_command(kind));
            }
            self.grow(id, random.pick(&kinds));
            let end = self.next_end(id, commands, random);
            self.open.retain(|&open| open != end);
            self.open.push(end);
        }
    }

    /// The child in which the branch goes on.
    fn next_end(&self, id: usize, commands: bool, random: &mut Random) -> usize {
        let children = &self.branches[id].children;
        let is_command = |&&child: &&usize| self.branches[child].sort == Sort::Command;
        let wanted: Vec<usize> = children.iter().filter(is_command).copied().collect();
        match commands && !wanted.is_empty() {
            true => random.pick(&wanted),
            false => random.pick(children),
        }
    }

    /// Grows inner nodes until the count is reached or all ends are deepest.
    fn reach_count(&mut self, plan: &Plan, random: &mut Random) {
        let habit = Habit::any(random);
        let deepest = |growing: &Growing, id: usize| growing.branches[id].depth == plan.most_depth;
        let (mut done, mut growable) = self
            .open
            .iter()
            .partition::<Vec<usize>, _>(|&&id| deepest(self, id));
        while self.branches.len() < plan.nodes && !growable.is_empty() {
            let id = habit.take(&mut growable, random);
            let most_children = plan.nodes - self.branches.len();
            let kinds = inner_kinds(self.branches[id].sort, most_children);
            self.grow(id, random.pick(&kinds));
            for &child in &self.branches[id].children {
                match deepest(self, child) {
                    true => done.push(child),
                    false => growable.push(child),
                }
            }
        }
        done.extend(growable);
        self.open = done;
    }

    /// Makes every open end a leaf.
    fn close(&mut self, plan: &Plan, random: &mut Random) {
        for id in std::mem::take(&mut self.open) {
            let kinds = leaf_kinds(self.branches[id].sort, plan.constants);
            self.grow(id, random.pick(&kinds));
        }
    }

    /// The branches as numbered nodes.
    fn numbered(&self, plan: &Plan, random: &mut Random) -> Vec<Node> {
        let children = |id: usize| &self.branches[id].children[..];
        let number_of = numbers(self.branches.len(), children, random);
        let mut nodes = vec![Node::default(); self.branches.len()];
        for (branch, &number) in self.branches.iter().zip(&number_of) {
            nodes[number] = branch.node(plan, &number_of, random);
        }
        nodes
    }
}

impl Branch {
    fn node(&self, plan: &Plan, number_of: &[usize], random: &mut Random) -> Node {
        let kind = &KINDS[self.kind];
        let mut children = self.children.iter();
        let mut held = |place| match place {
            Place::Constant => index(plan.constants, random),
            Place::Field => index(plan.fields, random),
            Place::Child(_) => number_of[*children.next().expect("a child a place")],
            Place::Unused => 0,
        };
        Node {
            kind: self.kind as u8,
            places: kind.places.map(|place| held(place) as u16),
            operator: random.below(kind.operators.into()) as u8,
        }
    }
}

/// An index below the count, often the last one.
fn index(count: usize, random: &mut Random) -> usize {
    match random.once_in(4) {
        true => count - 1,
        false => random.below(count),
    }
}

fn has_a_command(kind: usize) -> bool {
    KINDS[kind].places.contains(&Place::Child(Sort::Command))
}
