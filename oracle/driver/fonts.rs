//! Fonts: written ones, damaged copies of them, and random bytes behind a valid header.

use crate::random::Random;

/// A font and code points that a text for it is made of.
#[derive(Clone)]
pub struct Font {
    pub bytes: Vec<u8>,
    pub codes: Vec<u32>,
}

struct Bits {
    bytes: Vec<u8>,
    count: usize,
}

impl Bits {
    fn put(&mut self, width: u8, value: u32) {
        for k in 0..width {
            if self.count % 8 == 0 {
                self.bytes.push(0);
            }
            *self.bytes.last_mut().unwrap() |= ((value >> k & 1) as u8) << (self.count % 8);
            self.count += 1;
        }
    }
}

/// The largest number of that many bits.
fn largest(width: u8) -> u32 {
    (1 << width) - 1
}

/// How a font's glyphs are made.
struct Manner {
    zeros: u8,
    ones: u8,
    w: u8,
    h: u8,
    x: u8,
    y: u8,
    advance: u8,
    largest_side: u32,
    /// random pairs, or the pairs of a random picture
    random_pairs: bool,
    /// pairs of two zeros may occur
    empty_pairs: bool,
}

fn width(r: &mut Random, least: u8, eight: bool) -> u8 {
    if eight && r.one_in(4) {
        8
    } else if r.one_in(3) {
        r.between(least.into(), 7) as u8
    } else {
        r.between(2, 5) as u8
    }
}

fn manner(r: &mut Random) -> Manner {
    // One font in ten may have fields or runs of 8 bits.
    let eight = r.one_in(10);
    Manner {
        zeros: width(r, 0, eight),
        ones: width(r, 0, eight),
        w: width(r, 0, eight),
        h: width(r, 0, eight),
        x: width(r, 1, eight),
        y: width(r, 1, eight),
        advance: width(r, 1, eight),
        largest_side: *r.of(&[3, 6, 6, 9, 9, 20, 255]),
        random_pairs: r.one_in(3),
        empty_pairs: r.one_in(4),
    }
}

fn side(r: &mut Random, width: u8, largest_side: u32) -> u32 {
    if r.one_in(12) {
        return 0;
    }
    let most = largest(width).min(largest_side);
    if most == 0 { 0 } else { r.between(1, most.into()) as u32 }
}

/// The bits of an offset or advance near `wanted`.
fn near(r: &mut Random, width: u8, wanted: i64) -> u32 {
    if r.one_in(6) {
        return r.below(1 << width) as u32;
    }
    let half = 1 << (width - 1);
    (half + wanted + r.between(-2, 2)).clamp(0, largest(width).into()) as u32
}

/// The runs of a random picture. A cell that the widths cannot say is turned over.
fn picture_runs(r: &mut Random, m: &Manner, cells: usize, bits: &mut Bits) {
    let ink = *r.of(&[1, 2, 2, 3, 9]);
    let mut picture: Vec<bool> = (0..cells).map(|_| r.one_in(ink)).collect();
    let mut before = None;
    let mut at = 0;
    while at < cells {
        let start = at;
        while at < cells && !picture[at] && at - start < largest(m.zeros) as usize {
            at += 1;
        }
        let zeros = at - start;
        let middle = at;
        while at < cells && picture[at] && at - middle < largest(m.ones) as usize {
            at += 1;
        }
        if at == start {
            picture[at] = !picture[at];
            continue;
        }
        let pair = (zeros as u32, (at - middle) as u32);
        put_pair(r, m, &mut before, pair, bits);
    }
}

fn put_pair(r: &mut Random, m: &Manner, before: &mut Option<(u32, u32)>, pair: (u32, u32), bits: &mut Bits) {
    let again = *before == Some(pair) && !r.one_in(5);
    if before.is_some() {
        bits.put(1, again.into());
    }
    if !again {
        bits.put(m.zeros, pair.0);
        bits.put(m.ones, pair.1);
    }
    *before = Some(pair);
}

/// Random pairs until the cells are there, or the glyph has some thousand bits.
fn random_runs(r: &mut Random, m: &Manner, cells: usize, bits: &mut Bits) {
    let mut before = None;
    let mut at = 0;
    while at < cells && bits.count < 1600 {
        let mut pair = (r.below(1 << m.zeros) as u32, r.below(1 << m.ones) as u32);
        if let (Some(last), true) = (before, r.one_in(3)) {
            pair = last;
        }
        if m.empty_pairs && r.one_in(4) {
            pair = (0, 0);
        }
        if pair == (0, 0) && !m.empty_pairs && largest(m.zeros) + largest(m.ones) > 0 {
            continue;
        }
        at += (pair.0 + pair.1) as usize;
        put_pair(r, m, &mut before, pair, bits);
    }
}

/// A glyph's data: fields, then runs. `whole` adds the byte that the last read fetches ahead.
fn glyph(r: &mut Random, m: &Manner, whole: bool) -> Vec<u8> {
    let mut bits = Bits { bytes: Vec::new(), count: 0 };
    let (w, h) = (side(r, m.w, m.largest_side), side(r, m.h, m.largest_side));
    bits.put(m.w, w);
    bits.put(m.h, h);
    let (x, y, advance) = (near(r, m.x, 0), near(r, m.y, 0), near(r, m.advance, w as i64 + 1));
    bits.put(m.x, x);
    bits.put(m.y, y);
    bits.put(m.advance, advance);
    let cells = (w * h) as usize;
    if cells > 0 {
        if m.random_pairs || largest(m.zeros) + largest(m.ones) == 0 {
            random_runs(r, m, cells, &mut bits);
        } else {
            picture_runs(r, m, cells, &mut bits);
        }
    }
    if whole && bits.bytes.len() * 8 == bits.count {
        bits.bytes.push(r.byte());
    }
    bits.bytes
}

/// A record: code, jump, data. A jump that has no room in a byte is random.
fn record(r: &mut Random, code: &[u8], data: Vec<u8>, out: &mut Vec<u8>) {
    let length = code.len() + 1 + data.len();
    out.extend_from_slice(code);
    out.push(u8::try_from(length).unwrap_or_else(|_| r.byte()));
    out.extend(data);
}

fn header(r: &mut Random, m: &Manner) -> Vec<u8> {
    let small = |r: &mut Random| if r.one_in(8) { r.byte() } else { r.between(-4, 12) as u8 };
    let size = |r: &mut Random| if r.one_in(8) { r.between(0, 127) as u8 } else { r.between(0, 16) as u8 };
    let mut out = vec![r.byte(), *r.of(&[1, 1, 1, 0, 255]), m.zeros, m.ones, m.w, m.h, m.x, m.y, m.advance];
    out.push(size(r));
    out.push(size(r));
    for _ in 0..6 {
        out.push(small(r));
    }
    out.extend([0; 6]);
    out
}

const LOW: &[u32] = &[0, 9, 13, 32, 33, 43, 45, 46, 48, 49, 50, 51, 52, 53, 64];
const UPPER: &[u32] = &[65, 66, 67, 90, 91, 96];
const LOWER: &[u32] = &[97, 98, 99, 122, 127, 128, 176, 233, 255];
const HIGH: &[u32] = &[256, 257, 383, 880, 8364, 8451, 55295, 57344, 65533, 65535];

fn some(r: &mut Random, list: &[u32], one_in: usize) -> Vec<u32> {
    list.iter().copied().filter(|_| r.one_in(one_in)).collect()
}

fn set_u16(bytes: &mut [u8], at: usize, value: usize) {
    bytes[at] = (value >> 8) as u8;
    bytes[at + 1] = value as u8;
}

/// The table of the high code points and their records, in groups of one to four.
fn high_part(r: &mut Random, m: &Manner, codes: &[u32], whole: bool) -> Vec<u8> {
    let mut groups: Vec<(Vec<u8>, u32)> = Vec::new();
    let mut rest = codes;
    while !rest.is_empty() {
        let n = r.between(1, 4.min(rest.len()) as i64) as usize;
        let mut group = Vec::new();
        for (i, code) in rest[..n].iter().enumerate() {
            let data = glyph(r, m, whole || i + 1 < rest.len());
            record(r, &[(code >> 8) as u8, *code as u8], data, &mut group);
        }
        groups.push((group, rest[n - 1]));
        rest = &rest[n..];
    }
    if !r.one_in(6) {
        groups.push((vec![0, 0], 65535));
    }
    let mut table = Vec::new();
    let mut distance = groups.len() * 4;
    for (group, limit) in &groups {
        table.extend([(distance >> 8) as u8, distance as u8, (limit >> 8) as u8, *limit as u8]);
        distance = group.len();
    }
    for (group, _) in &groups {
        table.extend_from_slice(group);
    }
    table
}

/// A font by our own encoder: records in the order of their codes, the offsets of 'A', 'a' and U+0100, a jump table.
pub fn written(r: &mut Random) -> Font {
    let m = manner(r);
    let mut bytes = header(r, &m);
    let (low, upper, lower) = (some(r, LOW, 4), some(r, UPPER, 4), some(r, LOWER, 4));
    let high = if r.one_in(2) { some(r, HIGH, 4) } else { Vec::new() };
    // The last glyph of the file may end on its last bit.
    let whole = !r.one_in(4);
    let end_record = whole || r.one_in(2);
    for (part, offset) in [(&low, None), (&upper, Some(17)), (&lower, Some(19))] {
        if let Some(at) = offset {
            let here = bytes.len() - 23;
            set_u16(&mut bytes, at, here);
        }
        for code in part.iter() {
            let last = !end_record && high.is_empty() && part.last() == Some(code);
            let data = glyph(r, &m, !last);
            record(r, &[*code as u8], data, &mut bytes);
        }
    }
    if end_record {
        bytes.extend([0, 0]);
    }
    let here = bytes.len() - 23;
    set_u16(&mut bytes, 21, here);
    if !high.is_empty() {
        let part = high_part(r, &m, &high, whole);
        bytes.extend(part);
    }
    let codes = [low, upper, lower, high].concat();
    Font { bytes, codes }
}

/// A copy with one thing spoilt.
pub fn damaged(r: &mut Random, font: &Font) -> Font {
    let mut bytes = font.bytes.clone();
    let length = bytes.len();
    match r.below(6) {
        0 => {
            let at = r.below(length);
            bytes[at] = r.byte();
        }
        1 => {
            let at = r.below(length);
            bytes[at] ^= 1 << r.below(8);
        }
        2 => {
            let at = *r.of(&[17, 19, 21]);
            let moved = if r.one_in(4) { r.below(65536) } else { r.below(length) };
            set_u16(&mut bytes, at, moved);
        }
        3 => {
            let at = 2 + r.below(7);
            bytes[at] = r.below(10) as u8;
        }
        4 if length > 24 => {
            let at = 23 + r.below(length - 23);
            bytes.remove(at);
        }
        _ => {
            let at = 23 + r.below(length - 22);
            let byte = if r.one_in(2) { r.byte() } else { r.below(4) as u8 };
            bytes.insert(at, byte);
        }
    }
    Font { bytes, codes: font.codes.clone() }
}

/// Random bytes behind a header within limits; its codes are bytes and pairs of bytes that occur.
pub fn random(r: &mut Random) -> Font {
    let m = manner(r);
    let mut bytes = header(r, &m);
    let length = *r.of(&[0, 1, 2, 3, 5, 8, 13, 20, 40, 80, 200]);
    let most = *r.of(&[3, 8, 64, 256]);
    bytes.extend((0..length).map(|_| r.below(most) as u8));
    for at in [17, 19, 21] {
        let offset = r.below(length + 2);
        set_u16(&mut bytes, at, offset);
    }
    let mut codes = vec![45];
    for _ in 0..6 {
        if length > 1 {
            let at = 23 + r.below(length - 1);
            codes.push(bytes[at].into());
            codes.push(u32::from(bytes[at]) << 8 | u32::from(bytes[at + 1]));
        }
    }
    codes.retain(|c| char::from_u32(*c).is_some());
    Font { bytes, codes }
}

/// A written font behind a long chain or a long jump table, up to the largest length and one byte more.
pub fn long(r: &mut Random) -> Font {
    let font = written(r);
    let (head, body) = font.bytes.split_at(23);
    let mut bytes = head.to_vec();
    let most = *r.of(&[300, 3000, 3000, 60_000]);
    let n = r.below(most);
    if r.one_in(3) {
        // entries whose limit is below every code point, and the sum of whose distances may pass the end
        let distance = *r.of(&[0, 1, 4, 255]);
        for at in 17..23 {
            bytes[at] = 0;
        }
        for _ in 0..n {
            bytes.extend([0, distance, 0, r.byte()]);
        }
        bytes.extend_from_slice(body);
    } else {
        let jump = r.between(1, 3) as usize;
        for _ in 0..n {
            bytes.push(1);
            bytes.extend(std::iter::repeat(jump as u8).take(jump - 1));
        }
        for at in [17, 19, 21] {
            let moved = usize::from(bytes[at]) * 256 + usize::from(bytes[at + 1]) + n * jump;
            set_u16(&mut bytes, at, if moved < 65_536 { moved } else { 0 });
        }
        bytes.extend_from_slice(body);
    }
    if r.one_in(10) {
        bytes.resize(1_048_576 + r.below(2), 0);
    }
    Font { bytes, codes: font.codes }
}
