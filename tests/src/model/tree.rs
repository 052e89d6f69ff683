//! The tree that the nodes form, and rows 6 and 7 of the table. Both rows are
//! asked only of right nodes; depth has a meaning only once row 6 holds.

use super::nodes::Sort;
use super::sheet::Sheet;

/// The greatest depth.
pub const MOST_DEPTH: usize = 64;

/// Row 6: a node not used once, or the last not a command.
pub fn uses_are_right(sheet: &Sheet) -> bool {
    last_is_a_command(sheet) && last_is_nobodys_child(sheet) && others_are_a_child_once(sheet)
}

pub fn last_is_a_command(sheet: &Sheet) -> bool {
    let last = sheet.nodes.last();
    last.is_some_and(|node| node.sort() == Some(Sort::Command))
}

fn last_is_nobodys_child(sheet: &Sheet) -> bool {
    uses(sheet).last() == Some(&0)
}

fn others_are_a_child_once(sheet: &Sheet) -> bool {
    let uses = uses(sheet);
    let others = &uses[..uses.len() - 1];
    others.iter().all(|&times| times == 1)
}

/// How many times each node is a child.
pub fn uses(sheet: &Sheet) -> Vec<usize> {
    let mut uses = vec![0; sheet.nodes.len()];
    for child in sheet.nodes.iter().flat_map(|node| node.children()) {
        uses[child] += 1;
    }
    uses
}

/// Row 7: depth over 64.
pub fn depth_is_right(sheet: &Sheet) -> bool {
    depths(sheet).into_iter().all(|depth| depth <= MOST_DEPTH)
}

/// The depth of each node: the last node is at depth 1, a child one deeper.
/// From the last node down, a parent's depth is known before its children's.
pub fn depths(sheet: &Sheet) -> Vec<usize> {
    let mut depths = vec![1; sheet.nodes.len()];
    for number in (0..sheet.nodes.len()).rev() {
        for child in sheet.nodes[number].children() {
            depths[child] = depths[number] + 1;
        }
    }
    depths
}
