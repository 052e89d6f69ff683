//! Which partial fields the compared hand-outs have asked: those withheld in an
//! answer and those that refuse with 18, by where their levels lie from the reader.

use crate::model::hand_out::rules::DOCUMENT;
use crate::model::hand_out::Asked;
use crate::model::store::Marked;

/// A kind of hand-out that passes all checks up to row 11.
type Kind = (&'static str, fn(&Asked) -> bool);

const KINDS: [Kind; 8] = [
    ("a partial field withheld beside an open one", |asked| {
        let open = |field: Marked| !field.mark.partial && asked.at_or_below_reader(field);
        answers(asked, |field| is_withheld(asked, field)) && asked.marked().any(open)
    }),
    ("a partial field withheld, above the reader", |asked| {
        answers(asked, |field| {
            is_withheld(asked, field) && is_above(asked, field)
        })
    }),
    ("a partial field withheld, beside the reader", |asked| {
        answers(asked, |field| {
            is_withheld(asked, field) && !is_above(asked, field)
        })
    }),
    ("18 behind a withheld partial field", |asked| {
        let before = |(position, _)| asked.marked().take(position);
        let mut before = refused(asked).into_iter().flat_map(before);
        before.any(|field| is_withheld(asked, field))
    }),
    ("18 ahead of a withheld partial field", |asked| {
        let behind = |(position, _)| asked.marked().skip(position);
        let mut behind = refused(asked).into_iter().flat_map(behind);
        behind.any(|field| is_withheld(asked, field))
    }),
    ("18 at the reader's own level", |asked| {
        refused(asked).is_some_and(|(_, field)| field.mark.level == asked.reader)
    }),
    ("18 below the reader's level", |asked| {
        refused(asked).is_some_and(|(_, field)| field.mark.level != asked.reader)
    }),
    ("18 for the reader TOP", |asked| {
        refused(asked).is_some() && asked.reader == asked.sheet.levels.top()
    }),
];

/// Whether there is an answer and a field in it that is so.
fn answers(asked: &Asked, so: impl Fn(Marked) -> bool) -> bool {
    refused(asked).is_none() && asked.marked().any(so)
}

/// The position of 18 and its field.
fn refused(asked: &Asked) -> Option<(usize, Marked)> {
    let position = (DOCUMENT.refused_position)(asked)?;
    Some((position, asked.marked().nth(position)?))
}

/// Whether it is a partial field that does not refuse.
fn is_withheld(asked: &Asked, field: Marked) -> bool {
    field.mark.partial && !asked.at_or_below_reader(field)
}

/// Whether the reader lies at or below the field's level.
fn is_above(asked: &Asked, field: Marked) -> bool {
    let levels = &asked.sheet.levels;
    levels.at_or_below(asked.reader, field.mark.level)
}

/// In how many hand-outs each kind came.
#[derive(Clone, Debug, Default)]
pub struct PartialAsked {
    times: [u64; KINDS.len()],
}

impl PartialAsked {
    /// Counts a hand-out.
    pub fn count(&mut self, asked: &Asked) {
        for ((_, is_so), times) in KINDS.iter().zip(&mut self.times) {
            *times += u64::from(is_so(asked));
        }
    }

    /// In how many hand-outs each kind came, by its name.
    pub fn each(&self) -> impl Iterator<Item = (&'static str, u64)> + '_ {
        KINDS.iter().map(|(name, _)| *name).zip(self.times)
    }
}

#[cfg(test)]
mod tests {
    use super::*;
    use crate::model::levels::Levels;
    use crate::model::marks::Mark;
    use crate::model::sheet::Sheet;
    use crate::model::store::Store;

    /// The kinds of a request for fields of these marks of the diamond, each once.
    fn kinds(reader: usize, marks: &[Mark]) -> Vec<&'static str> {
        let field = |&mark: &Mark| Marked { value: 5, mark };
        let asked = Asked {
            sheet: Sheet {
                levels: Levels {
                    rows: vec![15, 10, 12, 8],
                },
                fields: vec![[b'q', 0, 0, 0, 0, 0, 0, 0]; marks.len()],
                constants: vec![],
                nodes: vec![],
            },
            store: Store {
                fields: marks.iter().map(field).collect(),
            },
            reader,
            fields: (0..marks.len()).collect(),
        };
        let mut counted = PartialAsked::default();
        counted.count(&asked);
        let came = counted.each().filter(|(_, times)| *times == 1);
        came.map(|(kind, _)| kind).collect()
    }

    #[test]
    fn a_hand_out_is_of_each_kind_that_it_fits() {
        let (whole, partial) = (Mark::whole, Mark::partial);
        let none: [&str; 0] = [];
        assert_eq!(kinds(1, &[whole(0), whole(3)]), none);
        assert_eq!(
            kinds(1, &[partial(2), whole(0)]),
            [
                "a partial field withheld beside an open one",
                "a partial field withheld, beside the reader",
            ]
        );
        assert_eq!(
            kinds(1, &[whole(2), partial(3)]),
            ["a partial field withheld, above the reader"]
        );
        assert_eq!(
            kinds(1, &[partial(3), whole(1), partial(1), partial(0)]),
            [
                "18 behind a withheld partial field",
                "18 at the reader's own level",
            ]
        );
        assert_eq!(
            kinds(2, &[partial(0), partial(1)]),
            [
                "18 ahead of a withheld partial field",
                "18 below the reader's level",
            ]
        );
        assert_eq!(
            kinds(3, &[whole(0), partial(2)]),
            ["18 below the reader's level", "18 for the reader TOP"]
        );
    }
}
