//! Random levels: chains, products of chains, parts side by side, parts on top
//! of each other and closure systems, level numbers permuted at random.
//! Also orders that fail to be lattices, made so on purpose.

use crate::model::levels::Levels;
use crate::random::Random;

/// A relation between levels: `order[i][j]` when i lies at or below j.
pub type Order = Vec<Vec<bool>>;

/// The greatest count of levels.
pub const MOST_LEVELS: usize = 16;

fn order_of(count: usize, at_or_below: impl Fn(usize, usize) -> bool) -> Order {
    let row = |i| (0..count).map(|j| at_or_below(i, j)).collect();
    (0..count).map(row).collect()
}

fn chain(count: usize) -> Order {
    order_of(count, |i, j| i <= j)
}

fn antichain(count: usize) -> Order {
    order_of(count, |i, j| i == j)
}

/// Pairs of levels, ordered part by part.
fn product(left: &Order, right: &Order) -> Order {
    let width = right.len();
    order_of(left.len() * width, |i, j| {
        left[i / width][j / width] && right[i % width][j % width]
    })
}

/// Two orders side by side, unrelated.
fn beside(left: &Order, right: &Order) -> Order {
    let split = left.len();
    order_of(split + right.len(), |i, j| match (i < split, j < split) {
        (true, true) => left[i][j],
        (false, false) => right[i - split][j - split],
        _ => false,
    })
}

/// Every level of `lower` below every level of `upper`.
fn stack(lower: &Order, upper: &Order) -> Order {
    let split = lower.len();
    order_of(split + upper.len(), |i, j| match (i < split, j < split) {
        (true, true) => lower[i][j],
        (false, false) => upper[i - split][j - split],
        (is_lower, _) => is_lower,
    })
}

/// Upside down.
fn dual(order: &Order) -> Order {
    order_of(order.len(), |i, j| order[j][i])
}

/// The same order under random level numbers.
pub fn permuted(order: &Order, random: &mut Random) -> Order {
    let number = random.permutation(order.len());
    order_of(order.len(), |i, j| order[number[i]][number[j]])
}

/// Chains multiplied as long as they fit; chains of two give subset lattices.
fn product_of_chains(most: usize, random: &mut Random) -> Order {
    let longest = random.pick(&[2, 2, 3, 4, 8]);
    let mut order = chain(1);
    loop {
        let factor = chain(random.between(2, longest));
        if order.len() * factor.len() > most {
            return order;
        }
        order = product(&order, &factor);
    }
}

/// Sets closed under intersection, with the set of all: any lattice can come.
fn closure_system(most: usize, random: &mut Random) -> Order {
    let all = 0xff_u8 >> random.below(6);
    let mut sets = vec![all];
    for _ in 0..12 {
        let new = random.byte() & all;
        let mut closed = sets.clone();
        for meet in sets.iter().map(|set| set & new) {
            if !closed.contains(&meet) {
                closed.push(meet);
            }
        }
        if closed.len() <= most {
            sets = closed;
        }
    }
    order_of(sets.len(), |i, j| sets[i] & sets[j] == sets[i])
}

/// Two or more lattices side by side: no two of different parts are related.
fn parts_beside(most: usize, random: &mut Random) -> Order {
    let first = random.between(1, most - 1);
    let mut order = part(first, random);
    let mut parts = 1;
    while order.len() < most && (parts < 2 || !random.once_in(3)) {
        let next = random.between(1, most - order.len());
        order = beside(&order, &part(next, random));
        parts += 1;
    }
    order
}

fn part(most: usize, random: &mut Random) -> Order {
    match random.below(3) {
        0 => chain(1),
        1 => chain(random.between(1, most)),
        _ => product_of_chains(most, random),
    }
}

/// Parts between a bottom and a top: the diamond, M3, N5 and the like.
fn parts_between_ends(most: usize, random: &mut Random) -> Order {
    if most < 4 {
        return chain(most);
    }
    let parts = parts_beside(most - 2, random);
    stack(&stack(&chain(1), &parts), &chain(1))
}

fn stacked(most: usize, random: &mut Random) -> Order {
    let lower = random.between(1, most);
    let lower = parts_between_ends(lower, random);
    match most - lower.len() {
        0 => lower,
        left => stack(&lower, &closure_system(left, random)),
    }
}

/// A random lattice of at most 16 levels.
pub fn lattice(random: &mut Random) -> Order {
    let most = match random.below(4) {
        0 => MOST_LEVELS,
        _ => random.between(1, MOST_LEVELS),
    };
    let order = match random.below(5) {
        0 => chain(most),
        1 => product_of_chains(most, random),
        2 => parts_between_ends(most, random),
        3 => stacked(most, random),
        _ => closure_system(most, random),
    };
    let order = if random.once_in(2) {
        dual(&order)
    } else {
        order
    };
    permuted(&order, random)
}

/// Two levels side by side between a bottom and a top.
pub fn diamond(random: &mut Random) -> Order {
    permuted(&product(&chain(2), &chain(2)), random)
}

/// A lattice of one to eight levels, most often with levels side by side.
pub fn small_lattice(random: &mut Random) -> Order {
    let order = match random.below(16) {
        0 => chain(1),
        1..4 => chain(2),
        4 => chain(3),
        5..8 => product(&chain(2), &chain(2)),
        8..10 => product(&product(&chain(2), &chain(2)), &chain(2)),
        10 => product(&chain(2), &chain(3)),
        11..14 => parts_between_ends(random.between(5, 8), random),
        _ => closure_system(8, random),
    };
    permuted(&order, random)
}

/// Parts with a bottom but no top: meets, not all joins.
pub fn without_joins(random: &mut Random) -> Order {
    let most = random.between(2, MOST_LEVELS - 1);
    let parts = parts_beside(most, random);
    permuted(&stack(&chain(1), &parts), random)
}

/// Parts with a top but no bottom: joins, not all meets.
pub fn without_meets(random: &mut Random) -> Order {
    dual(&without_joins(random))
}

/// Two or more levels below two or more others, between a bottom and a top:
/// bounds everywhere, but no least and no greatest one in the middle.
pub fn without_least_bounds(random: &mut Random) -> Order {
    let lower = random.between(2, 7);
    let upper = random.between(2, MOST_LEVELS - 2 - lower);
    let middle = stack(&antichain(lower), &antichain(upper));
    permuted(&stack(&stack(&chain(1), &middle), &chain(1)), random)
}

/// A random partial order with a bottom and a top, a lattice or not.
pub fn bounded_order(random: &mut Random) -> Order {
    let count = random.between(3, MOST_LEVELS);
    let mut order = order_of(count, |i, j| i == j || i == 0 || j == count - 1);
    for _ in 0..random.between(0, 2 * count) {
        let i = random.below(count - 1);
        let j = random.between(i + 1, count - 1);
        order[i][j] = true;
    }
    for middle in 0..count {
        order = order_of(count, |i, j| {
            order[i][j] || order[i][middle] && order[middle][j]
        });
    }
    permuted(&order, random)
}

/// The rows of an order.
pub fn rows(order: &Order) -> Levels {
    let row = |above: &Vec<bool>| {
        let set = above.iter().enumerate().filter(|(_, &set)| set);
        set.fold(0, |row, (j, _)| row | 1 << j)
    };
    Levels {
        rows: order.iter().map(row).collect(),
    }
}

/// The order that rows tell; bits past the count are dropped.
pub fn order(levels: &Levels) -> Order {
    order_of(levels.count(), |i, j| levels.at_or_below(i, j))
}
