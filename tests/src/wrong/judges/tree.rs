//! Judges wrong about the tree: uses and depth.

use super::WrongJudge;
use crate::model::nodes::{Place, Sort};
use crate::model::number::{DONE, NOT_USED_ONCE, TOO_DEEP};
use crate::model::sheet::Sheet;
use crate::model::tree::{depths, last_is_a_command, uses, MOST_DEPTH};

pub fn judges() -> Vec<WrongJudge> {
    let mut judges = uses_misjudged();
    judges.extend(depth_misjudged());
    judges.extend((0..3).map(place_not_deeper));
    judges
}

/// Says done for a wrong use where the last is a command and the uses of the
/// others are so.
fn misusing(name: &str, so: impl Fn(&[usize]) -> bool + 'static) -> WrongJudge {
    WrongJudge::confusing_sheets(name, (NOT_USED_ONCE, DONE), move |sheet| {
        let uses = uses(sheet);
        last_is_a_command(sheet) && so(&uses[..uses.len() - 1])
    })
}

fn all_once(uses: &[usize]) -> bool {
    uses.iter().all(|&times| times == 1)
}

fn uses_misjudged() -> Vec<WrongJudge> {
    vec![
        WrongJudge::confusing_sheets("an expression last", (NOT_USED_ONCE, DONE), |sheet| {
            let uses = uses(sheet);
            all_once(&uses[..uses.len() - 1])
        }),
        misusing("used twice", |uses| uses.iter().all(|&times| times >= 1)),
        misusing("never used", |uses| uses.iter().all(|&times| times <= 1)),
        misusing("only the sum of uses", |uses| {
            uses.iter().sum::<usize>() == uses.len()
        }),
        misusing("use of the first node", |uses| {
            !uses.is_empty() && all_once(&uses[1..])
        }),
        misusing("use of the node before the last", |uses| {
            !uses.is_empty() && all_once(&uses[..uses.len() - 1])
        }),
    ]
}

fn deepest(sheet: &Sheet) -> usize {
    depths(sheet).into_iter().max().unwrap_or(0)
}

fn depth_misjudged() -> Vec<WrongJudge> {
    vec![
        WrongJudge::confusing_sheets("depth 65 taken", (TOO_DEEP, DONE), |sheet| {
            deepest(sheet) == MOST_DEPTH + 1
        }),
        WrongJudge::confusing_sheets("depth 64 refused", (DONE, TOO_DEEP), |sheet| {
            deepest(sheet) == MOST_DEPTH
        }),
        WrongJudge::confusing_sheets("depth over 65 taken", (TOO_DEEP, DONE), |sheet| {
            deepest(sheet) > MOST_DEPTH + 1
        }),
        WrongJudge::confusing_sheets("depth in one byte", (TOO_DEEP, DONE), |sheet| {
            deepest(sheet) % 256 <= MOST_DEPTH
        }),
        depth_of(Sort::Command, "only depth of commands"),
        depth_of(Sort::Expression, "only depth of expressions"),
    ]
}

/// Looks only at the depth of nodes of one sort.
fn depth_of(sort: Sort, name: &str) -> WrongJudge {
    WrongJudge::confusing_sheets(name, (TOO_DEEP, DONE), move |sheet| {
        let nodes = sheet.nodes.iter().zip(depths(sheet));
        nodes
            .filter(|(node, _)| node.sort() == Some(sort))
            .all(|(_, depth)| depth <= MOST_DEPTH)
    })
}

/// Takes a child in one of the places to be no deeper than its parent.
fn place_not_deeper(place: usize) -> WrongJudge {
    let letter = ["a", "b", "c"][place];
    let name = format!("a child in place {letter} no deeper");
    WrongJudge::confusing_sheets(name, (TOO_DEEP, DONE), move |sheet| {
        let mut depths = vec![1; sheet.nodes.len()];
        for number in (0..sheet.nodes.len()).rev() {
            for (at, (holds, child)) in sheet.nodes[number].held().enumerate() {
                if matches!(holds, Place::Child(_)) {
                    depths[usize::from(child)] = depths[number] + usize::from(at != place);
                }
            }
        }
        depths.into_iter().all(|depth| depth <= MOST_DEPTH)
    })
}
