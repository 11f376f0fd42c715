//! Damage to question files, by name: to bodies before the pairs are made, and to finished files.

use super::samples::{sample_event, sample_frame};
use super::values::edges;
use crate::event::Event;
use crate::limits::{DB, MOST_FILE};
use crate::random::Random;

pub type Bodies = Vec<Vec<u8>>;
/// Damage to the bodies, before the pairs are made.
pub type BodyDamage = (&'static str, fn(&mut Random, &mut Bodies));
/// Damage to the finished file.
pub type FileDamage = (&'static str, fn(&mut Random, &mut Vec<u8>));

pub const BODIES: [BodyDamage; 17] = [
    ("kind 0", |r, b| set_first(r, b, 0)),
    ("kind 8", |r, b| set_first(r, b, 8)),
    ("kind 255", |r, b| set_first(r, b, 255)),
    ("another's kind", |r, b| {
        let kind = r.among(1, 7) as u8;
        set_first(r, b, kind);
    }),
    ("a byte more", |r, b| {
        let byte = r.one(&[0, 0, 1, 255]);
        some_body(r, b).push(byte);
    }),
    ("a byte less", |r, b| {
        some_body(r, b).pop();
    }),
    ("empty body", |r, b| some_body(r, b).clear()),
    ("kind alone", |r, b| some_body(r, b).truncate(1)),
    ("body cut", |r, b| {
        let body = some_body(r, b);
        body.truncate(r.below(body.len() + 1));
    }),
    ("body lengthened", |r, b| {
        let more = r.among(1, 24);
        let body = some_body(r, b);
        body.resize(body.len() + more, 0);
    }),
    ("flags over 7", |r, b| {
        let flags = r.one(&[8, 8, 9, 15, 16, 64, 128, 255]);
        let body = some_frames(r, b);
        let frame = r.below((body.len() - 10) / 12);
        body[10 + 12 * frame + 1] = flags;
    }),
    ("mark byte over 1", |r, b| {
        let mark = r.one(&[2, 2, 3, 128, 255]);
        some_reading(r, b)[1] = mark;
    }),
    ("missing, with bits", |r, b| {
        let bits = r.one(&[1 << 63, 1, 1 << 62, 0xff00, u64::MAX]);
        let body = some_reading(r, b);
        body[1] = 0;
        body[2..10].copy_from_slice(&bits.to_le_bytes());
    }),
    ("missing, in form", |r, b| {
        some_reading(r, b)[1..10].fill(0);
    }),
    ("families byte over 1", |r, b| {
        let byte = r.one(&[2, 2, 3, 128, 255]);
        let mut body = vec![5, 0, 1];
        body[r.among(1, 2)] = byte;
        put(r, b, body);
    }),
    ("values at their edges", |r, b| {
        let value = r.one(&edges(DB));
        let body = some_reading(r, b);
        body[1] = 1;
        body[2..10].copy_from_slice(&value.to_le_bytes());
    }),
    ("any body", |r, b| {
        let length = r.below(40);
        let mut body = vec![r.among(1, 7) as u8];
        body.extend((0..length).map(|_| r.bits() as u8));
        put(r, b, body);
    }),
];

pub const FILES: [FileDamage; 29] = [
    ("0 bytes", |_, f| f.clear()),
    ("7 bytes", |_, f| f.truncate(7)),
    ("8 bytes", |_, f| f.truncate(8)),
    ("9 bytes", |_, f| f.resize(9, 0)),
    ("pairs cut", |r, f| {
        let bodies = 8 + 8 * pairs(f);
        f.truncate(r.among(8, bodies));
    }),
    ("count + 1", |_, f| add(f, 0, 1)),
    ("count - 1", |_, f| add(f, 0, u32::MAX)),
    ("count 0", |_, f| set(f, 0, 0)),
    ("count 1,000", |_, f| set(f, 0, 1000)),
    ("count 1,001", |_, f| set(f, 0, 1001)),
    ("count + 2^16", |_, f| add(f, 0, 1 << 16)),
    ("count 2^32 - 1", |_, f| set(f, 0, u32::MAX)),
    ("air 0", |_, f| set(f, 4, 0)),
    ("air 3", |_, f| set(f, 4, 3)),
    ("air + 256", |_, f| add(f, 4, 256)),
    ("air 2^32 - 1", |_, f| set(f, 4, u32::MAX)),
    ("other air", |_, f| f[4] = 3 - f[4]),
    ("offset off by one", |r, f| {
        let step = r.one(&[1, u32::MAX]);
        let pair = some_pair(r, f);
        add(f, pair, step);
    }),
    ("length off by one", |r, f| {
        let step = r.one(&[1, u32::MAX]);
        let pair = some_pair(r, f);
        add(f, pair + 4, step);
    }),
    ("gap before a body", |r, f| shift(r, f, 1)),
    ("body begins early", |r, f| shift(r, f, u32::MAX)),
    ("pairs in wrong order", |r, f| {
        if pairs(f) > 1 {
            let at = 8 + 8 * r.below(pairs(f) - 1);
            let (first, second) = f[at..at + 16].split_at_mut(8);
            first.swap_with_slice(second);
        }
    }),
    ("last runs past the end", |r, f| {
        let more = r.one(&[1, 2, 12, 1 << 16, 1 << 31]);
        let last = 8 * pairs(f);
        add(f, last + 4, more);
    }),
    ("huge length", |r, f| {
        let length = r.one(&[u32::MAX, 1 << 31, 65_537]);
        let pair = some_pair(r, f);
        set(f, pair + 4, length);
    }),
    ("huge offset", |r, f| {
        let offset = r.one(&[u32::MAX, 1 << 31, 65_537]);
        let pair = some_pair(r, f);
        set(f, pair, offset);
    }),
    ("sums that wrap", |r, f| wrap(r, f)),
    ("bytes after the end", |r, f| {
        let length = f.len() + r.among(1, 12);
        f.resize(length, r.one(&[0, 1, 5]));
    }),
    ("bytes missing", |r, f| {
        let length = f.len().saturating_sub(r.among(1, 12));
        f.truncate(length);
    }),
    ("over 65,536 bytes", |r, f| {
        let length = MOST_FILE + r.among(1, 5000);
        f.resize(length, 0);
    }),
];

/// Some body of the file, or a new one of any kind.
fn some_body<'a>(random: &mut Random, bodies: &'a mut Bodies) -> &'a mut Vec<u8> {
    if bodies.is_empty() || random.chance(50) {
        let kind = random.among(1, 7) as u8;
        return put(random, bodies, sample_event(kind).body());
    }
    let at = random.below(bodies.len());
    &mut bodies[at]
}

/// Puts a body into some place.
fn put<'a>(random: &mut Random, bodies: &'a mut Bodies, body: Vec<u8>) -> &'a mut Vec<u8> {
    let at = random.below(bodies.len() + 1);
    bodies.insert(at, body);
    &mut bodies[at]
}

fn set_first(random: &mut Random, bodies: &mut Bodies, kind: u8) {
    if let Some(first) = some_body(random, bodies).first_mut() {
        *first = kind;
    }
}

/// A new list of a few frames.
fn some_frames<'a>(random: &mut Random, bodies: &'a mut Bodies) -> &'a mut Vec<u8> {
    let frames = vec![sample_frame(0, true); random.among(1, 4)];
    let snr_db = random.one(&[None, Some(3.0)]);
    put(random, bodies, Event::Frames { snr_db, frames }.body())
}

/// A new body that begins with a reading.
fn some_reading<'a>(random: &mut Random, bodies: &'a mut Bodies) -> &'a mut Vec<u8> {
    let kind = random.one(&[1, 2, 4]);
    put(random, bodies, sample_event(kind).body())
}

/// How many pairs the file has room for, of those it says it has.
fn pairs(file: &[u8]) -> usize {
    get(file, 0).min((file.len() as u32).saturating_sub(8) / 8) as usize
}

/// Where some pair stands.
fn some_pair(random: &mut Random, file: &[u8]) -> usize {
    8 + 8 * random.below(pairs(file).max(1))
}

fn get(file: &[u8], at: usize) -> u32 {
    let bytes = file.get(at..at + 4);
    bytes.map_or(0, |bytes| {
        u32::from_le_bytes(bytes.try_into().expect("four bytes"))
    })
}

/// Sets a whole number of the file, if it has room for it.
pub fn set(file: &mut [u8], at: usize, number: u32) {
    if let Some(bytes) = file.get_mut(at..at + 4) {
        bytes.copy_from_slice(&number.to_le_bytes());
    }
}

fn add(file: &mut [u8], at: usize, number: u32) {
    set(file, at, get(file, at).wrapping_add(number));
}

/// Moves the offsets from some pair on, and makes the file longer or shorter to fit.
fn shift(random: &mut Random, file: &mut Vec<u8>, by: u32) {
    let pairs = pairs(file);
    for pair in random.below(pairs.max(1))..pairs {
        add(file, 8 + 8 * pair, by);
    }
    if by == 1 {
        file.push(0);
    } else {
        file.pop();
    }
}

/// Pairs whose ends meet only if sums of 32 bits wrap around.
fn wrap(random: &mut Random, file: &mut [u8]) {
    let pairs = pairs(file);
    if pairs < 2 {
        return;
    }
    let at = 8 + 8 * random.below(pairs - 1);
    let (offset, next) = (get(file, at), get(file, at + 8));
    let early = random.below(offset as usize + 1) as u32;
    let length = get(file, at + 12).wrapping_add(next.wrapping_sub(early));
    set(file, at + 4, early.wrapping_sub(offset));
    set(file, at + 8, early);
    set(file, at + 12, length);
}
