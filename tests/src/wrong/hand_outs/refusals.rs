//! Hand-outs wrong about partial fields: which refuse and which are withheld, and the
//! place that is told.

use super::entries::Entry;
use super::WrongHandOut;
use crate::model::hand_out::rules::{Rules, DOCUMENT};
use crate::model::hand_out::Asked;
use crate::model::number::{MARK_WRONG, PARTIAL_ASKED};
use crate::model::store::Marked;
use crate::model::{Answer, HandOut};
use crate::wrong::calls::{in_rules, Answering, Faults};

pub fn hand_outs() -> Vec<WrongHandOut> {
    let mut hand_outs = in_rules! {
        crate::model::hand_out::rules;
        refused_position: PLACES,
        refused_position: SHOWN,
    };
    let withheld = |&(name, refused): &(_, Refused)| WrongHandOut::by((name, withholding(refused)));
    hand_outs.extend(WITHHELD.iter().map(withheld));
    hand_outs.extend(NOT_REFUSED.iter().copied().map(WrongHandOut::by));
    hand_outs.extend(ANSWERS.iter().copied().map(WrongHandOut::answering));
    hand_outs
}

type Refused = fn(&Asked) -> Option<usize>;

/// The first position of a partial field that is so.
fn first(asked: &Asked, so: impl Fn(Marked) -> bool) -> Option<usize> {
    let mut fields = asked.marked();
    fields.position(|field| field.mark.partial && so(field))
}

/// The same, of those that refuse.
fn first_refusing(asked: &Asked, so: impl Fn(Marked) -> bool) -> Option<usize> {
    first(asked, |field| asked.at_or_below_reader(field) && so(field))
}

/// The positions of those that refuse.
fn refusing(asked: &Asked) -> Vec<usize> {
    let fields = asked.marked().enumerate();
    let refusing =
        fields.filter(|(_, field)| field.mark.partial && asked.at_or_below_reader(*field));
    refusing.map(|(position, _)| position).collect()
}

/// The place is another one.
const PLACES: Faults<Refused> = &[
    ("the last partial position told", |asked| {
        refusing(asked).last().copied()
    }),
    ("the second partial position told", |asked| {
        let refusing = refusing(asked);
        refusing.get(1).or(refusing.first()).copied()
    }),
    ("the first partial position of any level told", |asked| {
        refusing(asked).first().and(first(asked, |_| true))
    }),
    (
        "withheld partial fields not counted in the position",
        |asked| {
            let position = *refusing(asked).first()?;
            let before = asked.marked().take(position);
            Some(before.filter(|field| !field.mark.partial).count())
        },
    ),
    ("withheld fields not counted in the position", |asked| {
        let position = *refusing(asked).first()?;
        let before = asked.marked().take(position);
        Some(
            before
                .filter(|&field| asked.at_or_below_reader(field))
                .count(),
        )
    }),
    ("partial positions counted from 1", |asked| {
        refusing(asked).first().map(|position| position + 1)
    }),
    ("the partial field told", |asked| {
        refusing(asked)
            .first()
            .map(|&position| asked.fields[position])
    }),
    ("the partial field's byte told", |asked| {
        refusing(asked).first().map(|position| 2 + 2 * position)
    }),
    ("how many partial fields told", |asked| {
        let refusing = refusing(asked);
        (!refusing.is_empty()).then_some(refusing.len())
    }),
    ("no position told", |asked| {
        refusing(asked).first().map(|_| 0)
    }),
    ("repeats not counted in the position", |asked| {
        let position = *refusing(asked).first()?;
        let mut before = asked.fields[..position].to_vec();
        before.sort_unstable();
        before.dedup();
        Some(before.len())
    }),
];

/// More fields refuse, or fewer, and what is partial at or below the reader and
/// doesn't refuse is shown.
const SHOWN: Faults<Refused> = &[
    ("only the first asked field refuses", |asked| {
        refusing(asked).first().copied().filter(|&first| first == 0)
    }),
    ("only the last asked field refuses", |asked| {
        let last = asked.fields.len().checked_sub(1)?;
        refusing(asked).contains(&last).then_some(last)
    }),
    ("a partial field not asked refuses", |asked| {
        let mut fields = asked.store.fields.iter();
        let any = fields.any(|&field| field.mark.partial && asked.at_or_below_reader(field));
        any.then(|| refusing(asked).first().copied().unwrap_or(0))
    }),
    ("only partial fields elsewhere refuse", |asked| {
        first(asked, |field| !asked.at_or_below_reader(field))
    }),
    ("partial TOP doesn't refuse", |asked| {
        let top = asked.sheet.levels.top();
        first_refusing(asked, |field| field.mark.level != top)
    }),
    ("a partial field of value 0 doesn't refuse", |asked| {
        first_refusing(asked, |field| field.value != 0)
    }),
    ("no partial field refuses TOP", |asked| {
        let top = asked.sheet.levels.top();
        first_refusing(asked, |_| asked.reader != top)
    }),
    ("a closed field refuses too", |asked| {
        // Partial at or below the reader, or whole elsewhere.
        let mut fields = asked.marked();
        fields.position(|field| field.mark.partial == asked.at_or_below_reader(field))
    }),
    ("every request with a field refused", |asked| {
        let first = refusing(asked).first().copied();
        first.or((!asked.fields.is_empty()).then_some(0))
    }),
];

/// Partial fields that don't refuse are withheld, whatever their level.
const fn withholding(refused_position: Refused) -> Rules {
    Rules {
        refused_position,
        entry: |levels, reader, field| match field.mark.partial {
            true => (0, 0),
            false => (DOCUMENT.entry)(levels, reader, field),
        },
        ..DOCUMENT
    }
}

/// Whether the reader lies at or below the field's level.
fn reader_at_or_below(asked: &Asked, field: Marked) -> bool {
    let levels = &asked.sheet.levels;
    levels.at_or_below(asked.reader, field.mark.level)
}

/// Others refuse, and the rest of the partial fields are withheld.
const WITHHELD: Faults<Refused> = &[
    ("any partial field refuses", |asked| first(asked, |_| true)),
    ("a partial field at or below the reader withheld", |_| None),
    (
        "a partial field at the reader's own level withheld",
        |asked| first_refusing(asked, |field| field.mark.level != asked.reader),
    ),
    (
        "a partial field below the reader's own level withheld",
        |asked| first(asked, |field| field.mark.level == asked.reader),
    ),
    (
        "a partial field withheld where the reader lies at or below it",
        |asked| first(asked, |field| !reader_at_or_below(asked, field)),
    ),
    (
        "a partial field refuses where the reader lies at or below it",
        |asked| first(asked, |field| reader_at_or_below(asked, field)),
    ),
    ("a partial field refuses by its level's number", |asked| {
        first(asked, |field| field.mark.level <= asked.reader)
    }),
    ("a partial field beside the reader refuses", |asked| {
        first(asked, |field| {
            field.mark.level == asked.reader || !reader_at_or_below(asked, field)
        })
    }),
    ("only a partial field above the reader refuses", |asked| {
        first(asked, |field| {
            field.mark.level != asked.reader && reader_at_or_below(asked, field)
        })
    }),
    ("only partial TOP withheld", |asked| {
        let top = asked.sheet.levels.top();
        first(asked, |field| {
            field.mark.level != top || asked.reader == top
        })
    }),
    ("only partial BOT refuses", |asked| {
        let bottom = asked.sheet.levels.bottom();
        first(asked, |field| field.mark.level == bottom)
    }),
    ("no partial field refuses behind a withheld one", |asked| {
        let elsewhere = first(asked, |field| !asked.at_or_below_reader(field));
        let position = *refusing(asked).first()?;
        elsewhere
            .is_none_or(|elsewhere| position < elsewhere)
            .then_some(position)
    }),
    (
        "a withheld partial field refuses where nothing is open",
        |asked| match asked.marked().any(|field| asked.at_or_below_reader(field)) {
            true => first_refusing(asked, |_| true),
            false => first(asked, |_| true),
        },
    ),
];

/// No partial field refuses; it is shown like this.
const fn showing(entry: Entry) -> Rules {
    Rules {
        refused_position: |_| None,
        entry,
        ..DOCUMENT
    }
}

const NOT_REFUSED: Faults<Rules> = &[
    (
        "a partial field told as such",
        showing(|levels, reader, field| match field.mark.partial {
            true => (2, 0),
            false => (DOCUMENT.entry)(levels, reader, field),
        }),
    ),
    (
        "a partial field taken for a whole one",
        showing(DOCUMENT.entry),
    ),
];

const ANSWERS: Faults<Answering<HandOut>> = &[
    ("9 for 18", |_, answer| match answer.number {
        PARTIAL_ASKED => Answer::plain(MARK_WRONG),
        _ => answer,
    }),
    ("a unit on 18", |_, answer| Answer {
        units: u32::from(answer.number == PARTIAL_ASKED),
        ..answer
    }),
];
