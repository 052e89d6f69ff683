//! Damages to calls of hand-out.

use super::lists::*;
use super::{some_of, Change, CountChange, Damage, ListChange};
use crate::model::hand_out::rules::MOST_ASKED;
use crate::model::hand_out::NUMBER_BYTES;
use crate::model::number::READER_OR_REQUEST;
use crate::model::sheet::{Sheet, COUNT_BYTES};
use crate::model::HandOut;
use crate::random::Random;

fn asked(call: &mut HandOut) -> &mut Vec<u8> {
    &mut call.request
}

/// Damages to calls of hand-out.
impl Damage<HandOut> {
    const fn to_request(name: &'static str, change: ListChange) -> Damage<HandOut> {
        Damage::new(name, READER_OR_REQUEST, Change::List(asked, change))
    }

    const fn to_request_count(name: &'static str, change: CountChange) -> Damage<HandOut> {
        Damage::new(name, READER_OR_REQUEST, Change::Count(asked, change))
    }

    const TO_READERS_AND_REQUESTS: &'static [Damage<HandOut>] = &[
        Damage::to_call(
            "the first unknown reader",
            READER_OR_REQUEST,
            first_unknown_reader,
        ),
        Damage::to_call("any unknown reader", READER_OR_REQUEST, unknown_reader),
        Damage::to_call("a reader's high bits", READER_OR_REQUEST, reader_high_bits),
        Damage::to_request("a request a byte short", byte_short),
        Damage::to_request("a request cut anywhere", cut),
        Damage::to_request("a byte behind the request", byte_left),
        Damage::to_request("many bytes behind the request", bytes_left),
        Damage::to_request("no request", nothing),
        Damage::to_request("garbage for a request", garbage),
        Damage::to_request_count("a request's count off by one", count_off_by_one),
        Damage::to_request_count("a request's count's high byte", count_high_byte),
        Damage::to_request_count("a request's count in big-endian", count_big_endian),
        Damage::to_request_count("any count of the request", any_count),
        Damage::to_request("65 fields asked", one_too_many),
        Damage::to_request("more than 65 fields asked", far_too_many),
        Damage::to_call(
            "the first unknown field",
            READER_OR_REQUEST,
            first_unknown_field,
        ),
        Damage::to_call("any unknown field", READER_OR_REQUEST, unknown_field),
        Damage::to_call("a field's high byte", READER_OR_REQUEST, field_high_byte),
    ];

    /// By the number that they bring about, the last in the order of checks first.
    pub const OF_HAND_OUT: &'static [&'static [Damage<HandOut>]] = &[
        Damage::TO_OUTPUTS,
        Damage::TO_READERS_AND_REQUESTS,
        &[
            Damage::MARK_ABOVE_31,
            Damage::UNKNOWN_LEVEL,
            Damage::FIRST_UNKNOWN_LEVEL,
        ],
        Damage::TO_STORES,
    ];
}

fn first_unknown_reader(call: &mut HandOut, sheet: &Sheet, _: &mut Random) -> bool {
    call.reader = sheet.levels.count() as u32;
    true
}

fn unknown_reader(call: &mut HandOut, sheet: &Sheet, random: &mut Random) -> bool {
    let near = random.between(sheet.levels.count(), 40) as u32;
    let any = random.word() as u32 | 1 << 16;
    call.reader = random.pick(&[near, near, 16, 31, 255, u32::MAX, any]);
    true
}

/// The lowest bits, a byte or a half are a known reader.
fn reader_high_bits(call: &mut HandOut, _: &Sheet, random: &mut Random) -> bool {
    let any = random.between(4, 31);
    call.reader |= 1 << random.pick(&[4, 8, 16, any]);
    true
}

/// Asks the last field so often that the count, in step with the length, is this.
fn ask_up_to(request: &mut Vec<u8>, count: usize) -> bool {
    let last = match request.len() > COUNT_BYTES {
        true => [request[request.len() - 2], request[request.len() - 1]],
        false => [0, 0],
    };
    while request.len() < COUNT_BYTES + NUMBER_BYTES * count {
        request.extend(last);
    }
    set_count(request, count);
    true
}

fn one_too_many(request: &mut Vec<u8>, _: &mut Random) -> bool {
    ask_up_to(request, MOST_ASKED + 1)
}

/// Also the greatest count, and one whose low byte is a right one.
fn far_too_many(request: &mut Vec<u8>, random: &mut Random) -> bool {
    let most = match random.once_in(8) {
        true => 65_535,
        false => random.between(MOST_ASKED + 2, 300),
    };
    ask_up_to(request, random.pick(&[most, most, 127, 128, 256, 257]))
}

/// Asks this field in some place; false if no field is asked.
fn ask(call: &mut HandOut, field: usize, random: &mut Random) -> bool {
    let asked = count(&mut call.request);
    if asked > 0 {
        let at = COUNT_BYTES + NUMBER_BYTES * some_of(asked, random);
        call.request[at..at + NUMBER_BYTES].copy_from_slice(&(field as u16).to_le_bytes());
    }
    asked > 0
}

fn first_unknown_field(call: &mut HandOut, sheet: &Sheet, random: &mut Random) -> bool {
    ask(call, sheet.fields.len(), random)
}

fn unknown_field(call: &mut HandOut, sheet: &Sheet, random: &mut Random) -> bool {
    let fields = sheet.fields.len();
    let near = random.between(fields, fields + 3);
    let any = random.between(fields, 65_535);
    let field = random.pick(&[near, any, 65_535, 64]);
    ask(call, field, random)
}

/// The low byte is a known field.
fn field_high_byte(call: &mut HandOut, sheet: &Sheet, random: &mut Random) -> bool {
    let high = random.pick(&[1, 1, 2, 128, 255]) << 8;
    let field = random.below(sheet.fields.len()) | high;
    ask(call, field, random)
}
