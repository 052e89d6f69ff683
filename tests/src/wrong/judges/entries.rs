//! Judges wrong about levels, names and single nodes.

use super::WrongJudge;
use crate::model::nodes::{fault_of, first_fault, first_fault_by, Law, Place, KINDS, LAWS};
use crate::model::number::{DONE, LEVELS_WRONG, NAME_WRONG, NODE_UNKNOWN};
use crate::model::sheet::{Node, Sheet};
use crate::model::{levels, names};

pub fn judges() -> Vec<WrongJudge> {
    let mut judges = laws_overlooked();
    judges.extend(names_misread());
    judges.extend(nodes_not_judged());
    for kind in 0..KINDS.len() {
        judges.push(operator_overlooked(kind));
        judges.extend((0..3).map(|place| place_overlooked(kind, place)));
    }
    judges.extend(values_misread());
    judges.extend(limits_misread());
    judges
}

/// Each law of levels, names and nodes left out, the others kept.
fn laws_overlooked() -> Vec<WrongJudge> {
    let level_laws = levels::LAWS.iter().map(|&(out, _)| {
        let name = format!("levels: '{out}' overlooked");
        WrongJudge::confusing_sheets(name, (LEVELS_WRONG, DONE), move |sheet| {
            others(&levels::LAWS, out).all(|law| law(&sheet.levels))
        })
    });
    let name_laws = names::LAWS.iter().map(|&(out, _)| {
        let name = format!("names: '{out}' overlooked");
        WrongJudge::confusing_sheets(name, (NAME_WRONG, DONE), move |sheet| {
            others(&names::LAWS, out).all(|law| law(&sheet.fields))
        })
    });
    let node_laws = LAWS.iter().map(|out| {
        let name = format!("nodes: '{}' overlooked", out.name);
        let kept = LAWS.iter().filter(|law| law.name != out.name);
        let kept: Vec<Law> = kept.copied().collect();
        WrongJudge::finding(name, move |sheet| first_fault_by(&kept, sheet))
    });
    level_laws.chain(name_laws).chain(node_laws).collect()
}

/// All laws of a list but one.
fn others<Law>(
    laws: &'static [(&'static str, Law)],
    out: &'static str,
) -> impl Iterator<Item = &'static Law> {
    let kept = laws.iter().filter(move |(name, _)| *name != out);
    kept.map(|(_, law)| law)
}

fn names_misread() -> Vec<WrongJudge> {
    let refused = |character: u8| {
        let name = format!("names with {:?} refused", char::from(character));
        WrongJudge::confusing_sheets(name, (DONE, NAME_WRONG), move |sheet| {
            sheet.fields.iter().flatten().any(|&byte| byte == character)
        })
    };
    let mut judges: Vec<WrongJudge> = b"az09_"
        .iter()
        .map(|&character| refused(character))
        .collect();
    judges.extend([
        WrongJudge::confusing_sheets(
            "only neighbours' names compared",
            (NAME_WRONG, DONE),
            |sheet| {
                let neighbours_differ = sheet.fields.windows(2).all(|pair| pair[0] != pair[1]);
                others(&names::LAWS, "no name twice").all(|law| law(&sheet.fields))
                    && neighbours_differ
            },
        ),
        WrongJudge::confusing_sheets(
            "seven bytes of names compared",
            (DONE, NAME_WRONG),
            |sheet| {
                let starts: Vec<&[u8]> = sheet.fields.iter().map(|name| &name[..7]).collect();
                (0..starts.len()).any(|end| starts[..end].contains(&starts[end]))
            },
        ),
        WrongJudge::confusing_sheets("names of eight refused", (DONE, NAME_WRONG), |sheet| {
            sheet.fields.iter().any(|name| name[7] != 0)
        }),
    ]);
    judges
}

/// The first or the last node is not judged.
fn nodes_not_judged() -> Vec<WrongJudge> {
    vec![
        WrongJudge::finding("first node not judged", |sheet| {
            (1..sheet.nodes.len()).find_map(|number| fault_of(&LAWS, sheet, number))
        }),
        WrongJudge::finding("last node not judged", |sheet| {
            (0..sheet.nodes.len() - 1).find_map(|number| fault_of(&LAWS, sheet, number))
        }),
    ]
}

/// Overlooks what a change to the nodes of one kind puts right.
fn overlooking(
    name: String,
    kind: usize,
    put_right: impl Fn(&Sheet, usize, &mut Node) + 'static,
) -> WrongJudge {
    WrongJudge::finding(name, move |sheet| {
        let mut changed = sheet.clone();
        for (number, node) in changed.nodes.iter_mut().enumerate() {
            if usize::from(node.kind) == kind {
                put_right(sheet, number, node);
            }
        }
        first_fault(&changed)
    })
}

fn operator_overlooked(kind: usize) -> WrongJudge {
    let name = format!("operator byte of '{}' overlooked", KINDS[kind].name);
    overlooking(name, kind, |_, _, node| node.operator = 0)
}

fn place_overlooked(kind: usize, place: usize) -> WrongJudge {
    let letter = ["a", "b", "c"][place];
    let name = format!("place {letter} of '{}' overlooked", KINDS[kind].name);
    let holds = KINDS[kind].places[place];
    overlooking(name, kind, move |sheet, number, node| {
        node.places[place] = match holds {
            Place::Child(sort) => (0..number)
                .find(|&lower| sheet.nodes[lower].sort() == Some(sort))
                .unwrap_or(0) as u16,
            _ => 0,
        };
    })
}

/// Overlooks a value in places of one holding that reads right when changed.
fn misreading(
    name: &str,
    holding: impl Fn(Place) -> bool + 'static,
    change: impl Fn(&Sheet, u16) -> u16 + 'static,
) -> WrongJudge {
    WrongJudge::finding(name, move |sheet| {
        let mut changed = sheet.clone();
        for node in &mut changed.nodes {
            let held: Vec<(Place, u16)> = node.held().collect();
            for (at, (place, value)) in held.into_iter().enumerate() {
                if holding(place) {
                    node.places[at] = change(sheet, value);
                }
            }
        }
        first_fault(&changed)
    })
}

fn values_misread() -> Vec<WrongJudge> {
    let is_constant = |place| place == Place::Constant;
    let is_field = |place| place == Place::Field;
    let is_child = |place| matches!(place, Place::Child(_));
    let is_unused = |place| place == Place::Unused;
    vec![
        misreading(
            "constant index at the count",
            is_constant,
            |sheet, index| {
                index - u16::from(index > 0 && usize::from(index) == sheet.constants.len())
            },
        ),
        misreading("field index at the count", is_field, |sheet, index| {
            index - u16::from(usize::from(index) == sheet.fields.len())
        }),
        misreading("low byte of constant indexes", is_constant, |_, index| {
            index % 256
        }),
        misreading("low byte of field indexes", is_field, |_, index| {
            index % 256
        }),
        misreading("low byte of unused places", is_unused, |_, value| {
            value % 256
        }),
        misreading("low bits of child numbers", is_child, |_, child| {
            child % 1024
        }),
    ]
}

/// Asks this for the law of this name.
fn asking(name: &str, law: &str, holds: fn(&Sheet, usize) -> bool) -> WrongJudge {
    let mut laws = LAWS;
    for asked in laws.iter_mut().filter(|asked| asked.name == law) {
        asked.holds = holds;
    }
    WrongJudge::finding(name, move |sheet| first_fault_by(&laws, sheet))
}

fn limits_misread() -> Vec<WrongJudge> {
    vec![
        asking("a node its own child", "child number", |sheet, number| {
            let mut children = sheet.nodes[number].children();
            children.all(|child| child <= number)
        }),
        WrongJudge::finding("operator 10 taken", |sheet| {
            let mut changed = sheet.clone();
            for node in &mut changed.nodes {
                node.operator -= u8::from(node.operator == 10);
            }
            first_fault(&changed)
        }),
        WrongJudge::confusing_sheets("operator 9 refused", (DONE, NODE_UNKNOWN), |sheet| {
            sheet.nodes.iter().any(|node| node.operator == 9)
        }),
    ]
}
