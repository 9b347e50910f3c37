//! Tables cut, stretched and mutated, with the refusal where it is known.

use crate::encode::{encode_as, encode_ranged, fix_length};
use crate::refusal::Refusal;
use crate::rng::Rng;
use crate::table::{Program, Version, TABLE_MIN};

/// Bytes and the refusal they must get, if that is known.
pub type Judged = (Vec<u8>, Option<Refusal>);

/// A spoiled table of a program.
pub fn spoiled(rng: &mut Rng, program: &Program) -> Judged {
    spoiled_as(rng, program, Version::Full)
}

/// A spoiled table of a version, of a program whose table is not too large.
pub fn spoiled_as(rng: &mut Rng, program: &Program, version: Version) -> Judged {
    let table = encode_as(program, version);
    match rng.below(10) {
        0 => cut(rng, table),
        1 => cut_shorter_field(rng, table),
        2 => stretched(rng, table),
        3 => stretched_longer_field(rng, table, version),
        4 => other_version(rng, table, version),
        5 | 6 => out_of_range(rng, program, version),
        7 | 8 => mutated(rng, table),
        _ => noise(rng, version),
    }
}

/// A table cut off, its length field kept.
pub fn cut(rng: &mut Rng, mut table: Vec<u8>) -> Judged {
    table.truncate(rng.below(table.len()));
    (table, Some(Refusal::plain(1)))
}

/// A table cut off, its length field fitting: the byte after it is missing.
pub fn cut_shorter_field(rng: &mut Rng, mut table: Vec<u8>) -> Judged {
    let length = rng.between(TABLE_MIN, table.len() - 1);
    table.truncate(length);
    fix_length(&mut table);
    (table, Some(Refusal::byte(length)))
}

fn some_more(rng: &mut Rng, table: &mut Vec<u8>) {
    for _ in 0..rng.one_of([1, 1, 2, 9]) {
        table.push(rng.byte(0, u8::MAX));
    }
}

/// A table with more bytes, its length field kept.
pub fn stretched(rng: &mut Rng, mut table: Vec<u8>) -> Judged {
    some_more(rng, &mut table);
    (table, Some(Refusal::plain(1)))
}

/// A table with more bytes, its length field fitting: they are left over.
pub fn stretched_longer_field(rng: &mut Rng, mut table: Vec<u8>, version: Version) -> Judged {
    let length = table.len();
    some_more(rng, &mut table);
    fix_length(&mut table);
    let refusal = if table.len() > version.most() {
        Refusal::plain(1)
    } else {
        Refusal::byte(length)
    };
    (table, Some(refusal))
}

/// A table of another version, sometimes with more faults behind.
pub fn other_version(rng: &mut Rng, mut table: Vec<u8>, version: Version) -> Judged {
    let next = 3 - version.number();
    table[4] = rng.one_of([0, next, 9, 255]);
    if rng.chance(50) {
        table[5] = 0;
    }
    (table, Some(Refusal::plain(2)))
}

/// A table with a byte out of its range, sometimes another after it.
pub fn out_of_range(rng: &mut Rng, program: &Program, version: Version) -> Judged {
    let ranged = encode_ranged(program, version);
    let mut table: Vec<u8> = ranged.iter().map(|r| r.byte).collect();
    let places: Vec<usize> = (5..table.len())
        .filter(|&at| ranged[at].min > 0 || ranged[at].max < u8::MAX)
        .collect();
    let mut first = usize::MAX;
    for _ in 0..rng.between(1, 2) {
        let place = places[rng.below(places.len())];
        let (min, max) = (ranged[place].min, ranged[place].max);
        let any = rng.byte(max + 1, u8::MAX);
        let below = if min > 0 { min - 1 } else { max + 1 };
        table[place] = rng.one_of([max + 1, any, u8::MAX, below]);
        first = first.min(place);
    }
    (table, Some(Refusal::byte(first)))
}

/// A table with some bytes changed at random.
pub fn mutated(rng: &mut Rng, mut table: Vec<u8>) -> Judged {
    for _ in 0..rng.one_of([1, 1, 2, 4]) {
        let place = rng.below(table.len());
        let byte = table[place];
        let any = rng.byte(0, u8::MAX);
        table[place] = rng.one_of([
            any,
            byte.wrapping_add(1),
            byte.wrapping_sub(1),
            byte ^ 1 << (any & 7),
        ]);
    }
    if rng.chance(20) {
        let place = rng.below(table.len());
        table.remove(place);
        if table.len() >= 4 {
            fix_length(&mut table);
        }
    }
    (table, None)
}

/// Random bytes, often with a fitting header, of any length.
pub fn noise(rng: &mut Rng, version: Version) -> Judged {
    let (any, most_bytes) = (rng.below(200), version.most());
    let length = rng.one_of([0, 1, 4, 5, 6, 7, any, any, any, most_bytes, most_bytes + 1]);
    let most = rng.one_of([1, 5, 15, u8::MAX]);
    let mut table: Vec<u8> = (0..length).map(|_| rng.byte(0, most)).collect();
    if length >= TABLE_MIN && rng.chance(80) {
        fix_length(&mut table);
        table[4] = version.number();
        table[5] = rng.byte(1, 16);
    }
    let refusal = (!(TABLE_MIN..=most_bytes).contains(&length)).then_some(Refusal::plain(1));
    (table, refusal)
}
