//! When two stores agree for a reader level, as the document has it. The search
//! holds runs against what this is for: from stores that agree they end in stores
//! that agree.

use super::levels::Levels;
use super::store::{Marked, Store};

/// Same field count, and each field agrees.
pub fn stores_agree(levels: &Levels, reader: usize, one: &Store, other: &Store) -> bool {
    let mut fields = one.fields.iter().zip(&other.fields);
    one.fields.len() == other.fields.len()
        && fields.all(|(one, other)| fields_agree(levels, reader, one, other))
}

/// One of the clauses for a field.
pub fn fields_agree(levels: &Levels, reader: usize, one: &Marked, other: &Marked) -> bool {
    let open = |field: &Marked| levels.at_or_below(field.mark.level, reader);
    match (one.mark.partial, other.mark.partial) {
        // Both whole at one level at or below R, values equal; both whole at
        // levels not at or below R.
        (false, false) => (one == other && open(one)) || (!open(one) && !open(other)),
        (true, true) => true,
        (true, false) => partial_agrees_with_whole(levels, reader, one, other),
        (false, true) => partial_agrees_with_whole(levels, reader, other, one),
    }
}

/// One partial at A, the other whole at B, with B not at or below R, or A at or
/// below B.
fn partial_agrees_with_whole(
    levels: &Levels,
    reader: usize,
    partial: &Marked,
    whole: &Marked,
) -> bool {
    !levels.at_or_below(whole.mark.level, reader)
        || levels.at_or_below(partial.mark.level, whole.mark.level)
}

#[cfg(test)]
mod tests {
    use super::*;
    use crate::model::marks::Mark;

    /// For which of the diamond's readers two fields agree, whichever stands first.
    #[track_caller]
    fn agree(one: (Mark, i64), other: (Mark, i64), readers: &[usize]) {
        let levels = Levels {
            rows: vec![15, 10, 12, 8],
        };
        let [one, other] = [one, other].map(|(mark, value)| Marked { value, mark });
        for (one, other) in [(one, other), (other, one)] {
            let agrees = |reader: &usize| fields_agree(&levels, *reader, &one, &other);
            assert_eq!((0..4).filter(agrees).collect::<Vec<_>>(), readers);
        }
    }

    fn whole(level: usize, value: i64) -> (Mark, i64) {
        (Mark::whole(level), value)
    }

    fn partial(level: usize, value: i64) -> (Mark, i64) {
        (Mark::partial(level), value)
    }

    #[test]
    fn whole_fields() {
        agree(whole(1, 5), whole(1, 5), &[0, 1, 2, 3]);
        agree(whole(1, 5), whole(1, 6), &[0, 2]);
        agree(whole(1, 5), whole(2, 5), &[0]);
        agree(whole(1, 5), whole(3, 5), &[0, 2]);
        agree(whole(0, 5), whole(1, 5), &[]);
        agree(whole(0, 5), whole(0, 6), &[]);
    }

    #[test]
    fn partial_fields() {
        for level in 0..4 {
            agree(partial(1, 5), partial(level, 6), &[0, 1, 2, 3]);
        }
    }

    #[test]
    fn a_partial_and_a_whole_field() {
        // A at or below B.
        agree(partial(0, 5), whole(0, 6), &[0, 1, 2, 3]);
        agree(partial(0, 5), whole(1, 6), &[0, 1, 2, 3]);
        agree(partial(1, 5), whole(3, 6), &[0, 1, 2, 3]);
        // Otherwise where B is not at or below R.
        agree(partial(1, 5), whole(0, 6), &[]);
        agree(partial(1, 5), whole(2, 6), &[0, 1]);
        agree(partial(3, 5), whole(1, 6), &[0, 2]);
    }

    #[test]
    fn stores_of_different_length() {
        let levels = Levels { rows: vec![1] };
        let store = |fields| Store {
            fields: vec![
                Marked {
                    value: 1,
                    mark: Mark::whole(0),
                };
                fields
            ],
        };
        assert!(stores_agree(&levels, 0, &store(2), &store(2)));
        assert!(!stores_agree(&levels, 0, &store(2), &store(3)));
    }
}
