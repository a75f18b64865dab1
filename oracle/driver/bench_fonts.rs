//! The benchmark's fonts that are made in code: noise, long chains and jump tables, and glyphs of chosen runs.

/// The widths of both run numbers and of the five fields.
struct Widths {
    runs: (u32, u32),
    fields: [u32; 5],
}

const SMALL: Widths = Widths { runs: (3, 3), fields: [4, 4, 3, 4, 4] };
const LARGE: Widths = Widths { runs: (7, 7), fields: [8, 5, 3, 4, 8] };

/// A glyph's data: its fields x and y and its advance stand near the middle of their widths.
fn glyph(widths: &Widths, w: u32, h: u32, advance: u32, pairs: &[(u32, u32)]) -> Vec<u8> {
    let (mut bytes, mut count) = (Vec::new(), 0);
    let mut put = |width: u32, value: u32| {
        for k in 0..width {
            if count % 8 == 0 {
                bytes.push(0);
            }
            *bytes.last_mut().unwrap() |= ((value >> k & 1) as u8) << (count % 8);
            count += 1;
        }
    };
    let middle = |i: usize| 1 << (widths.fields[i] - 1);
    for (i, value) in [w, h, middle(2), middle(3), middle(4) + advance].into_iter().enumerate() {
        put(widths.fields[i], value);
    }
    for (i, pair) in pairs.iter().enumerate() {
        let again = i > 0 && pairs[i - 1] == *pair;
        if i > 0 {
            put(1, again.into());
        }
        if !again {
            put(widths.runs.0, pair.0);
            put(widths.runs.1, pair.1);
        }
    }
    bytes.push(0);
    bytes
}

/// A glyph of 6 x 9 pixels without a shape.
fn noise_glyph(code: u32) -> Vec<u8> {
    let picture: Vec<bool> = (0..54u32).map(|i| (i * 7 + code * 13 + i * i * code) % 5 < 2).collect();
    let (mut at, mut pairs) = (0, Vec::new());
    while at < 54 {
        let zeros = picture[at..].iter().take_while(|p| !**p).count().min(7);
        let ones = if zeros < 7 { picture[at + zeros..].iter().take_while(|p| **p).count().min(7) } else { 0 };
        pairs.push((zeros as u32, ones as u32));
        at += zeros + ones;
    }
    glyph(&SMALL, 6, 9, 7, &pairs)
}

fn header(widths: &Widths) -> Vec<u8> {
    let mut out = vec![95, 1, widths.runs.0 as u8, widths.runs.1 as u8];
    out.extend(widths.fields.map(|b| b as u8));
    out.extend([7, 10, 0, 254, 8, 254, 8, 254, 0, 0, 0, 0, 0, 0]);
    out
}

fn set(font: &mut [u8], at: usize) {
    let here = font.len() - 23;
    font[at] = (here >> 8) as u8;
    font[at + 1] = here as u8;
}

/// Every ASCII letter in noise, then `chain` records that no text names and the letter U+00FF, then a jump table of `table`
/// entries before U+FFFF.
pub fn noise(chain: usize, table: usize) -> Vec<u8> {
    let mut font = header(&SMALL);
    for code in 32..=126u32 {
        if code == 65 {
            set(&mut font, 17);
        }
        if code == 97 {
            set(&mut font, 19);
        }
        let data = noise_glyph(code);
        font.extend([code as u8, 2 + data.len() as u8]);
        font.extend(data);
    }
    for _ in 0..chain {
        font.extend([200, 2]);
    }
    let data = noise_glyph(255);
    font.extend([255, 2 + data.len() as u8]);
    font.extend(data);
    font.extend([0, 0]);
    set(&mut font, 21);
    for i in 0..table {
        font.extend([0, if i == 0 { 4 } else { 0 }, 1, 0]);
    }
    let distance = table * 4;
    font.extend([(distance >> 8) as u8, distance as u8, 255, 255]);
    let data = noise_glyph(65535);
    font.extend([255, 255, 3 + data.len() as u8]);
    font.extend(data);
    font.extend([0, 0]);
    font
}

/// One letter, "0", of 16 rows, `width` pixels wide. Each row is `pairs` pairs of as many zeros as ones; where `repeated` is
/// false no pair is equal to the one before it.
pub fn stripes(width: usize, pairs: usize, repeated: bool) -> Vec<u8> {
    let half = (width / pairs / 2) as u32;
    let pair = |i: usize| match i % 2 {
        _ if repeated => (half, half),
        0 => (half - 1, half + 1),
        _ => (half + 1, half - 1),
    };
    let runs: Vec<(u32, u32)> = (0..16 * pairs).map(pair).collect();
    let data = glyph(&LARGE, width as u32, 16, 100, &runs);
    let mut font = header(&LARGE);
    font.extend([48, u8::try_from(2 + data.len()).expect("a record of up to 255 bytes")]);
    font.extend(data);
    font.extend([0, 0]);
    font
}
