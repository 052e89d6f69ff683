//! Trials of load: the document's example, its trials, every limit from both
//! sides, each part of the later rows, and the order of the checks.

use super::*;

#[track_caller]
fn gives(number: u8, parts: &Parts) {
    assert_eq!(load(&parts.bytes()), Answer::plain(number));
}

#[track_caller]
fn rows_give(number: u8, rows: &[u16]) {
    let rows = rows.to_vec();
    gives(number, &Parts { rows, ..plain() });
}

#[track_caller]
fn names_give(number: u8, names: &[[u8; 8]]) {
    let names = names.to_vec();
    gives(number, &Parts { names, ..plain() });
}

#[track_caller]
fn nodes_give(number: u8, nodes: &[[u16; 5]]) {
    let nodes = nodes.to_vec();
    gives(number, &Parts { nodes, ..plain() });
}

/// The answer is this number at this node.
#[track_caller]
fn nodes_give_at(node: usize, number: u8, nodes: &[[u16; 5]]) {
    let nodes = nodes.to_vec();
    let bytes = Parts { nodes, ..plain() }.bytes();
    assert_eq!(load(&bytes), Answer::at_node(number, node));
}

#[test]
fn the_documents_example_is_taken_and_read_right() {
    assert_eq!(load(&EXAMPLE), Answer::plain(DONE));
    let sheet = Sheet::read(&EXAMPLE).expect("read");
    assert_eq!(sheet.levels.rows, [3, 2]);
    assert_eq!(sheet.fields, [name("q")]);
    assert_eq!(sheet.constants, [1]);
    assert_eq!(sheet.nodes.len(), 4);
    assert_eq!(sheet.nodes[2].places, [1, 0, 0]);
    assert_eq!(sheet.nodes[3].kind, 6);
    assert_eq!(sheet.nodes[3].places, [0, 2, 0]);
}

#[test]
fn answer_words_hold_number_place_and_units() {
    let answer = Answer {
        number: 0x12,
        place: 0x3456,
        units: 0x789a_bcde,
    };
    assert_eq!(answer.word(), 0x789a_bcde_0034_5612);
}

#[test]
fn every_cut_and_every_byte_left_is_1() {
    for end in 0..EXAMPLE.len() {
        assert_eq!(
            load(&EXAMPLE[..end]),
            Answer::plain(SHEET_LENGTH),
            "cut at {end}"
        );
    }
    for left in [1, 2, 8, 65_536] {
        let mut longer = EXAMPLE.to_vec();
        longer.resize(EXAMPLE.len() + left, 0);
        assert_eq!(
            load(&longer),
            Answer::plain(SHEET_LENGTH),
            "{left} bytes left"
        );
    }
}

#[test]
fn lengths_and_counts_come_in_byte_order() {
    let answers: [(&[u8], u8); 9] = [
        (&[], SHEET_LENGTH),
        (&[17], SHEET_LENGTH),
        (&[17, 0], COUNT_OUTSIDE),
        (&[0, 0], COUNT_OUTSIDE),
        (&[1, 1], COUNT_OUTSIDE),
        (&[2, 0, 3, 0], SHEET_LENGTH),
        // The rows are cut, so the next count, 0, is never reached.
        (&[2, 0, 3, 0, 0], SHEET_LENGTH),
        (&[1, 0, 1, 0, 65, 0], COUNT_OUTSIDE),
        // Bad rows do not come before the bad count behind them.
        (&[1, 0, 0, 0, 0, 0], COUNT_OUTSIDE),
    ];
    for (bytes, number) in answers {
        assert_eq!(load(bytes), Answer::plain(number), "{bytes:?}");
    }
}

#[test]
fn a_bad_count_comes_before_the_end_behind_it() {
    let mut cut = EXAMPLE[..24].to_vec();
    cut[22..24].copy_from_slice(&1025_u16.to_le_bytes());
    assert_eq!(load(&cut), Answer::plain(COUNT_OUTSIDE));
    cut.pop();
    assert_eq!(load(&cut), Answer::plain(SHEET_LENGTH));
}

fn chain(levels: usize) -> Vec<u16> {
    (0..levels).map(|i| (0xffff_u32 << i) as u16).collect()
}

fn chain_within(levels: usize) -> Vec<u16> {
    let within = ((1_u32 << levels) - 1) as u16;
    chain(levels).iter().map(|row| row & within).collect()
}

#[test]
fn one_to_sixteen_levels() {
    rows_give(COUNT_OUTSIDE, &[]);
    for levels in 1..=16 {
        rows_give(DONE, &chain_within(levels));
    }
    rows_give(COUNT_OUTSIDE, &chain(17));
}

#[test]
fn one_to_sixty_four_fields() {
    let names: Vec<_> = (0..65).map(|i| name(&format!("f{i}"))).collect();
    names_give(COUNT_OUTSIDE, &names[..0]);
    names_give(DONE, &names[..1]);
    names_give(DONE, &names[..64]);
    names_give(COUNT_OUTSIDE, &names);
}

#[test]
fn none_to_256_constants() {
    for (constants, number) in [(0, DONE), (1, DONE), (256, DONE), (257, COUNT_OUTSIDE)] {
        let constants = vec![-1; constants];
        gives(
            number,
            &Parts {
                constants,
                ..plain()
            },
        );
    }
}

/// A path of commands: `depth` deep, each sequence with a skip on one side.
fn sequences(depth: u16) -> Vec<[u16; 5]> {
    let mut nodes = vec![SKIP];
    for _ in 1..depth {
        let under = nodes.len() as u16 - 1;
        nodes.push(SKIP);
        nodes.push([7, 0, under, under + 1, 0]);
    }
    nodes
}

/// An assignment of nested nots: `depth` deep and as many nodes.
fn nots(depth: u16) -> Vec<[u16; 5]> {
    let mut nodes = vec![CONSTANT];
    nodes.extend((0..depth - 2).map(|under| [3, 0, under, 0, 0]));
    nodes.push([6, 0, 0, depth - 2, 0]);
    nodes
}

/// A sequence tree with this many skips, as shallow as can be.
fn bushy(skips: u16) -> Vec<[u16; 5]> {
    let mut nodes = vec![SKIP; usize::from(skips)];
    for pair in 0..skips - 1 {
        nodes.push([7, 0, 2 * pair, 2 * pair + 1, 0]);
    }
    nodes
}

#[test]
fn one_to_1024_nodes() {
    nodes_give(COUNT_OUTSIDE, &[]);
    nodes_give(DONE, &[SKIP]);
    nodes_give(DONE, &bushy(512));
    nodes_give(COUNT_OUTSIDE, &bushy(513));
    let mut nodes = bushy(511);
    nodes.extend([CONSTANT, [9, 0, 1021, 1020, 0]]);
    nodes_give(DONE, &nodes);
    nodes.extend([SKIP, [7, 0, 1022, 1023, 0]]);
    nodes_give(COUNT_OUTSIDE, &nodes);
    let mut nodes = bushy(511);
    nodes.extend([CONSTANT, [3, 0, 1021, 0, 0], [9, 0, 1022, 1020, 0]]);
    assert_eq!(nodes.len(), 1024);
    nodes_give(DONE, &nodes);
}

#[test]
fn depth_to_64() {
    nodes_give(DONE, &sequences(64));
    nodes_give(TOO_DEEP, &sequences(65));
    nodes_give(TOO_DEEP, &sequences(512));
    nodes_give(DONE, &nots(64));
    nodes_give(TOO_DEEP, &nots(65));
    nodes_give(TOO_DEEP, &nots(1024));
}

#[test]
fn the_documents_levels() {
    rows_give(DONE, &[3, 2]);
    rows_give(DONE, &[15, 10, 12, 8]);
    rows_give(LEVELS_WRONG, &[7, 2, 4]);
    rows_give(DONE, &[1]);
    rows_give(LEVELS_WRONG, &[0]);
}

#[test]
fn levels_that_form_a_lattice_are_taken() {
    // Level 1 below level 0.
    rows_give(DONE, &[1, 3]);
    // M3: bottom 0, three levels side by side, top 4.
    rows_give(DONE, &[0b11111, 0b10010, 0b10100, 0b11000, 0b10000]);
    // N5: 1 beside 2 below 3.
    rows_give(DONE, &[0b11111, 0b10010, 0b11100, 0b11000, 0b10000]);
}

#[test]
fn levels_that_break_a_law_are_3() {
    // A bit at the count, and the last bit.
    rows_give(LEVELS_WRONG, &[7, 2]);
    rows_give(LEVELS_WRONG, &[3, 0x8002]);
    // The middle one of three not at or below itself.
    rows_give(LEVELS_WRONG, &[0b111, 0b100, 0b100]);
    // Each at or below the other.
    rows_give(LEVELS_WRONG, &[3, 3]);
    // 1 below 2 below 3, but 1 not below 3; all joins and meets are there.
    rows_give(LEVELS_WRONG, &[0b11111, 0b10110, 0b11100, 0b11000, 0b10000]);
    // Two levels under one top have no meet; two unrelated ones nothing.
    rows_give(LEVELS_WRONG, &[0b101, 0b110, 0b100]);
    rows_give(LEVELS_WRONG, &[1, 2]);
    // 1 and 2 both below 3 and 4: upper bounds, none of them least.
    rows_give(
        LEVELS_WRONG,
        &[0b111111, 0b111010, 0b111100, 0b101000, 0b110000, 0b100000],
    );
}

#[test]
fn names() {
    for good in ["a", "z", "a0", "z9_", "q_______", "abcdefgh", "a9876543"] {
        names_give(DONE, &[name(good)]);
    }
    for bad in [
        "", "_", "0", "Q", "{", "`", "a/", "a:", "a`", "a{", "aZ", "a ", "abcdefg-",
    ] {
        names_give(NAME_WRONG, &[name(bad)]);
    }
    names_give(NAME_WRONG, &[*b"\0a\0\0\0\0\0\0"]);
    names_give(NAME_WRONG, &[*b"a\0b\0\0\0\0\0"]);
    names_give(NAME_WRONG, &[*b"a\0\0\0\0\0\0b"]);
    names_give(NAME_WRONG, &[*b"a\0\0\0\0\0\0\x01"]);
    names_give(NAME_WRONG, &[*b"a\xe1\0\0\0\0\0\0"]);
}

#[test]
fn no_name_twice() {
    names_give(DONE, &[name("a"), name("aa"), name("ab")]);
    names_give(DONE, &[name("abcdefgh"), name("abcdefgi")]);
    names_give(NAME_WRONG, &[name("a"), name("b"), name("a")]);
    names_give(NAME_WRONG, &[name("abcdefgh"), name("abcdefgh")]);
}

/// For each kind, the nodes of a small right sheet with that kind in it.
fn sheets_of_each_kind() -> Vec<Vec<[u16; 5]>> {
    vec![
        vec![CONSTANT, [6, 0, 0, 0, 0]],
        vec![FIELD, [6, 0, 0, 0, 0]],
        vec![CONSTANT, CONSTANT, [2, 9, 0, 1, 0], [6, 0, 0, 2, 0]],
        vec![CONSTANT, [3, 0, 0, 0, 0], [6, 0, 0, 1, 0]],
        vec![CONSTANT, [4, 0, 0, 0, 0], [6, 0, 0, 1, 0]],
        vec![SKIP],
        vec![FIELD, [6, 0, 0, 0, 0]],
        vec![SKIP, SKIP, [7, 0, 0, 1, 0]],
        vec![CONSTANT, SKIP, SKIP, [8, 0, 0, 1, 2]],
        vec![CONSTANT, SKIP, [9, 0, 0, 1, 0]],
    ]
}

/// Where the first node of this kind stands in its sheet.
fn place_of(kind: usize) -> usize {
    let nodes = &sheets_of_each_kind()[kind];
    let place = nodes.iter().position(|node| node[0] == kind as u16);
    place.expect("there")
}

/// Sets one part of the first node of this kind: 0 kind, 1 operator, 2 to 4 a to c.
fn with(kind: usize, part: usize, value: u16) -> Vec<[u16; 5]> {
    let mut nodes = sheets_of_each_kind()[kind].clone();
    nodes[place_of(kind)][part] = value;
    nodes
}

/// The number that the first node of this kind gets with this part so.
#[track_caller]
fn part_gives(number: u8, (kind, part): (usize, usize), value: u16) {
    nodes_give_at(place_of(kind), number, &with(kind, part, value));
}

#[test]
fn each_kind_is_taken_and_kind_10_is_19() {
    for nodes in sheets_of_each_kind() {
        nodes_give(DONE, &nodes);
    }
    for kind in 0..10 {
        part_gives(NODE_UNKNOWN, (kind, 0), 10);
        part_gives(NODE_UNKNOWN, (kind, 0), 255);
    }
}

#[test]
fn operators() {
    for operator in 0..=9 {
        nodes_give(DONE, &with(2, 1, operator));
    }
    part_gives(NODE_UNKNOWN, (2, 1), 10);
    part_gives(NODE_UNKNOWN, (2, 1), 255);
    // In a kind without one the byte is an unused place, whatever it is.
    for kind in [0, 1, 3, 4, 5, 6, 7, 8, 9] {
        for operator in [1, 9, 10, 255] {
            part_gives(NODE_UNUSED, (kind, 1), operator);
        }
    }
}

#[test]
fn unused_places_are_0() {
    let unused: [(usize, &[usize]); 10] = [
        (0, &[3, 4]),
        (1, &[3, 4]),
        (2, &[4]),
        (3, &[3, 4]),
        (4, &[3, 4]),
        (5, &[2, 3, 4]),
        (6, &[4]),
        (7, &[4]),
        (8, &[]),
        (9, &[4]),
    ];
    for (kind, parts) in unused {
        for &part in parts {
            part_gives(NODE_UNUSED, (kind, part), 1);
            part_gives(NODE_UNUSED, (kind, part), 256);
        }
    }
}

#[test]
fn child_numbers_are_lower() {
    let children: [(usize, &[usize]); 7] = [
        (2, &[2, 3]),
        (3, &[2]),
        (4, &[2]),
        (6, &[3]),
        (7, &[2, 3]),
        (8, &[2, 3, 4]),
        (9, &[2, 3]),
    ];
    for (kind, parts) in children {
        let nodes = sheets_of_each_kind()[kind].len();
        for &part in parts {
            for child in [place_of(kind), nodes, 65_535] {
                part_gives(NODE_RANGE, (kind, part), child as u16);
            }
        }
    }
}

#[test]
fn children_have_their_sort() {
    nodes_give_at(2, NODE_SORT, &[CONSTANT, SKIP, [2, 0, 0, 1, 0], SKIP]);
    nodes_give_at(1, NODE_SORT, &[SKIP, [3, 0, 0, 0, 0], SKIP]);
    nodes_give_at(1, NODE_SORT, &[SKIP, [4, 0, 0, 0, 0], SKIP]);
    nodes_give_at(1, NODE_SORT, &[SKIP, [6, 0, 0, 0, 0]]);
    nodes_give_at(2, NODE_SORT, &[CONSTANT, SKIP, [7, 0, 0, 1, 0]]);
    nodes_give_at(2, NODE_SORT, &[SKIP, CONSTANT, [7, 0, 0, 1, 0]]);
    nodes_give_at(3, NODE_SORT, &[SKIP, CONSTANT, SKIP, [8, 0, 0, 1, 2]]);
    nodes_give_at(3, NODE_SORT, &[SKIP, CONSTANT, SKIP, [8, 0, 1, 0, 1]]);
    nodes_give_at(2, NODE_SORT, &[SKIP, CONSTANT, [9, 0, 0, 1, 0]]);
    nodes_give_at(2, NODE_SORT, &[CONSTANT, CONSTANT, [9, 0, 0, 1, 0]]);
}

#[test]
fn indexes_are_in_range() {
    for (kind, last) in [(0, 2), (1, 1), (6, 1)] {
        nodes_give(DONE, &with(kind, 2, 0));
        nodes_give(DONE, &with(kind, 2, last));
        part_gives(NODE_RANGE, (kind, 2), last + 1);
        part_gives(NODE_RANGE, (kind, 2), 256);
    }
    let without_constants = Parts {
        constants: Vec::new(),
        nodes: sheets_of_each_kind()[0].clone(),
        ..plain()
    };
    gives(NODE_RANGE, &without_constants);
}

#[test]
fn a_node_is_looked_at_for_19_to_22_in_this_order() {
    // Node 2 is an operator; its faults are put right one after another.
    let mut nodes = vec![CONSTANT, SKIP, [2, 10, 1, 2, 1], [6, 0, 0, 2, 0]];
    for (number, part, right) in [
        (NODE_UNKNOWN, 1, 9),
        (NODE_UNUSED, 4, 0),
        (NODE_RANGE, 3, 0),
        (NODE_SORT, 2, 0),
    ] {
        nodes_give_at(2, number, &nodes);
        nodes[2][part] = right;
    }
    nodes_give(NOT_USED_ONCE, &nodes);
    // All of a node is looked at for one number before the next.
    nodes_give_at(0, NODE_UNUSED, &[[1, 0, 9, 0, 1]]);
    nodes_give_at(0, NODE_UNUSED, &[[6, 1, 9, 9, 0]]);
    nodes_give_at(1, NODE_RANGE, &[CONSTANT, [7, 0, 0, 1, 0]]);
    nodes_give_at(1, NODE_RANGE, &[SKIP, [6, 0, 2, 0, 0]]);
    // An unknown kind is 19 whatever else is wrong with the node.
    nodes_give_at(0, NODE_UNKNOWN, &[[10, 10, 9, 9, 9]]);
    // A child that is not lower has no sort.
    nodes_give_at(0, NODE_RANGE, &[[3, 0, 1, 0, 0], SKIP]);
}

#[test]
fn the_lowest_faulty_node_is_told() {
    let faults: [(u8, [u16; 5]); 4] = [
        (NODE_SORT, [3, 0, 0, 0, 0]),
        (NODE_RANGE, [1, 0, 2, 0, 0]),
        (NODE_UNUSED, [5, 0, 0, 0, 1]),
        (NODE_UNKNOWN, [10, 0, 0, 0, 0]),
    ];
    for (lower, node) in faults {
        for (_, later) in faults {
            nodes_give_at(1, lower, &[SKIP, node, later]);
            nodes_give_at(2, lower, &[SKIP, SKIP, node, SKIP, later]);
        }
    }
    let mut nodes = bushy(512);
    nodes[1022][4] = 1;
    nodes_give_at(1022, NODE_UNUSED, &nodes);
}

#[test]
fn nodes_are_used_once_and_the_last_is_a_command() {
    // Used twice, never, both at once.
    nodes_give(NOT_USED_ONCE, &[SKIP, [7, 0, 0, 0, 0]]);
    nodes_give(NOT_USED_ONCE, &[SKIP, SKIP]);
    nodes_give(NOT_USED_ONCE, &[SKIP, SKIP, [7, 0, 1, 1, 0]]);
    // An expression last.
    nodes_give(NOT_USED_ONCE, &[CONSTANT]);
    nodes_give(NOT_USED_ONCE, &[FIELD, [3, 0, 0, 0, 0]]);
    nodes_give(NOT_USED_ONCE, &[FIELD, [6, 0, 0, 0, 0], CONSTANT]);
}

#[test]
fn the_first_failing_row_in_the_order_is_told() {
    let mut parts = plain();
    parts.nodes = nots(65);
    gives(TOO_DEEP, &parts);
    parts.nodes.insert(65, SKIP);
    parts.nodes.swap(64, 65);
    gives(NOT_USED_ONCE, &parts);
    parts.nodes[0][4] = 1;
    gives(NODE_UNUSED, &parts);
    parts.names[0][0] = b'_';
    gives(NAME_WRONG, &parts);
    parts.rows[0] = 0;
    gives(LEVELS_WRONG, &parts);
    let mut bytes = parts.bytes();
    bytes.push(0);
    assert_eq!(load(&bytes), Answer::plain(SHEET_LENGTH));
    bytes[0] = 0;
    assert_eq!(load(&bytes), Answer::plain(COUNT_OUTSIDE));
}
