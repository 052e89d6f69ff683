//! The sheets of docs/TEACHING.md; `samples` has the flag sheet with a seal.

use crate::parts::name;
use beltuqash_tests::by_hand::*;
use beltuqash_tests::model::levels::Levels;
use beltuqash_tests::model::sheet::Sheet;

/// The sheets by the names of their files.
pub fn all() -> Vec<(&'static str, Sheet)> {
    vec![
        ("clean.sheet", clean()),
        ("floor.sheet", floor()),
        ("listing3.sheet", listing_3()),
        ("rounds.sheet", told_in_rounds()),
    ]
}

/// A sheet of these levels, fields and command.
fn sheet(rows: &[u16], fields: &[&str], command: Tree) -> Sheet {
    let (constants, nodes) = command.sections();
    Sheet {
        levels: Levels {
            rows: rows.to_vec(),
        },
        fields: fields.iter().map(|text| name(text)).collect(),
        constants,
        nodes,
    }
}

/// Document 002's listing 3 over the lattice of its figure 7: levels 0 L, 1 L',
/// 2 L1, 3 L2, 4 M1, 5 M2, 6 H.
fn listing_3() -> Sheet {
    let (z, w, x1, xp, x2, y1, y2) = (0, 1, 2, 3, 4, 5, 6);
    let choose = branch(field(xp), assign(z, field(y1)), assign(z, field(y2)));
    let first = branch(field(x1), assign(z, field(x1)), skip());
    let second = branch(not(field(x2)), assign(z, field(x2)), skip());
    let tell = branch(field(z), assign(w, field(z)), skip());
    sheet(
        &[127, 114, 84, 104, 80, 96, 64],
        &["z", "w", "x1", "xp", "x2", "y1", "y2"],
        then(choose, then(first, then(second, tell))),
    )
}

/// while n do (told := 1; n := n - 1).
fn told_in_rounds() -> Sheet {
    let (n, told) = (0, 1);
    let one_less = assign(n, operator(MINUS, field(n), constant(1)));
    let body = then(assign(told, constant(1)), one_less);
    sheet(&[3, 2], &["n", "told"], rounds(field(n), body))
}

/// if cost < 500 then p := 1 else skip; p := 7.
fn clean() -> Sheet {
    let (cost, p) = (0, 1);
    let cheap = operator(LESS, field(cost), constant(500));
    let first = branch(cheap, assign(p, constant(1)), skip());
    sheet(&[3, 2], &["cost", "p"], then(first, assign(p, constant(7))))
}

/// q := 7; if cost < 500 then floor := 1 else skip. Levels 0 dealer, 1 office,
/// 2 house.
fn floor() -> Sheet {
    let (q, floor, cost) = (0, 1, 2);
    let cheap = operator(LESS, field(cost), constant(500));
    let lower = branch(cheap, assign(floor, constant(1)), skip());
    let command = then(assign(q, constant(7)), lower);
    sheet(&[7, 6, 4], &["q", "floor", "cost"], command)
}
