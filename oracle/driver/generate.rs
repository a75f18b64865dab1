//! The cases, from a seed: rounds of a written font, texts over it, its cuts at every length, damaged copies, and random
//! bytes.

use std::collections::VecDeque;

use crate::case::{Case, ANCHORS};
use crate::fonts::{self, Font};
use crate::random::Random;
use crate::sequences::Sequences;

pub struct Cases {
    random: Random,
    fonts: VecDeque<Font>,
    sequences: Option<Sequences>,
    /// The old texts have a stream of their own too, so that a seed's other inputs stay as they are.
    old: Random,
}

impl Cases {
    pub fn new(seed: u64) -> Self {
        Cases { sequences: Some(Sequences::new(seed)), ..Self::plain(seed) }
    }

    /// The same cases without the sequences of sequences.rs: the stored answers are chosen from these.
    pub fn plain(seed: u64) -> Self {
        Cases { random: Random::new(seed), fonts: VecDeque::new(), sequences: None, old: Random::new(seed.rotate_left(32) ^ 1) }
    }

    pub fn next(&mut self) -> Case {
        if self.fonts.is_empty() {
            self.round();
        }
        let font = self.fonts.pop_front().expect("a round has fonts");
        let old_text = text(&mut self.old, &font.codes);
        let clear_color = self.old.byte();
        let mut case = Case { old_text, clear_color, ..case(&mut self.random, font) };
        if let Some(sequences) = &mut self.sequences {
            sequences.put(&mut case.text);
        }
        case
    }

    fn round(&mut self) {
        let r = &mut self.random;
        let font = fonts::written(r);
        for _ in 0..40 {
            self.fonts.push_back(font.clone());
        }
        // Every cut of a short font, and of a long one some forty.
        let length = font.bytes.len();
        let step = 1 + length / 160;
        let mut at = r.below(step);
        while at < length {
            self.fonts.push_back(Font { bytes: font.bytes[..at].to_vec(), codes: font.codes.clone() });
            // cuts within the header are all refused alike
            at += if at < 20 { 4 } else { step };
        }
        for _ in 0..30 {
            self.fonts.push_back(fonts::damaged(r, &font));
        }
        for _ in 0..30 {
            let random = fonts::random(r);
            self.fonts.push_back(random);
        }
        if r.one_in(10) {
            let long = fonts::long(r);
            self.fonts.push_back(long);
        }
    }
}

fn push(text: &mut Vec<u8>, code: u32) {
    let ch = char::from_u32(code).unwrap_or('-');
    text.extend_from_slice(ch.encode_utf8(&mut [0; 4]).as_bytes());
}

const OTHERS: &[u32] = &[0, 10, 13, 45, 64, 65, 96, 97, 127, 128, 255, 256, 2047, 2048, 8364, 55295, 57344, 65535, 65536, 1114111];

fn text(r: &mut Random, codes: &[u32]) -> Vec<u8> {
    let mut text = Vec::new();
    let letters = match r.below(400) {
        0 => 4096,
        1..=20 => r.below(200),
        21..=40 => 0,
        _ => 1 + r.below(8),
    };
    // Half of the texts have only letters that the font was given.
    let strange = if r.one_in(2) { 6 } else { usize::MAX };
    for _ in 0..letters {
        let before = text.len();
        if r.one_in(9) {
            text.push(10);
        } else if codes.is_empty() || (strange < usize::MAX && r.one_in(strange)) {
            push(&mut text, *r.of(OTHERS));
        } else {
            push(&mut text, *r.of(codes));
        }
        if text.len() > 4096 {
            text.truncate(before);
            break;
        }
    }
    if r.one_in(60) {
        for _ in 0..r.below(4) + 1 {
            let at = r.below(text.len() + 1);
            text.insert(at, 128 + (r.byte() & 127));
        }
    }
    if r.one_in(400) {
        let more = r.below(3) + 4096;
        text.resize(more.max(text.len()), 45);
    }
    text
}

fn place(r: &mut Random, side: usize) -> i32 {
    let extreme = [1_048_576, -1_048_576, 1_048_575, -1_048_575, 1_048_577, -1_048_577, i32::MAX, i32::MIN];
    match r.below(40) {
        0 => *r.of(&extreme),
        1 | 2 => *r.of(&extreme[..4]),
        3 => r.between(-1_048_576, 1_048_576) as i32,
        4..=7 => 0,
        _ => r.between(-12, side.min(300) as i64 + 12) as i32,
    }
}

fn line_height(r: &mut Random) -> u32 {
    match r.below(40) {
        0 => *r.of(&[65_536, 65_537, u32::MAX, 0x8000_0000]),
        1 => 65_535,
        2 => r.below(65_536) as u32,
        3..=5 => 0,
        _ => r.below(20) as u32,
    }
}

fn side(r: &mut Random) -> usize {
    match r.below(200) {
        0 => *r.of(&[0, 257, 1 << 32, usize::MAX]),
        1 | 2 => 256,
        3..=6 => 1,
        7..=40 => r.between(1, 64) as usize,
        _ => r.between(1, 24) as usize,
    }
}

fn case(r: &mut Random, font: Font) -> Case {
    let (width, height) = (side(r), side(r));
    let mut length = width.saturating_mul(height).min(65_792);
    match r.below(300) {
        0 => length += 1,
        1 => length = length.saturating_sub(1),
        _ => {}
    }
    let buffer = if length > 4096 { vec![r.byte(); length] } else { (0..length).map(|_| r.byte()).collect() };
    let text = text(r, &font.codes);
    Case {
        font: font.bytes,
        text,
        old_text: Vec::new(),
        clear_color: 0,
        x: place(r, width),
        y: place(r, height),
        line_height: line_height(r),
        skip: r.one_in(4),
        anchor: r.below(ANCHORS),
        fg: r.byte(),
        bg: r.byte(),
        width,
        height,
        buffer,
    }
}
