//! The values of a font's header.

/// The values of a font's header, under the names that u8g2-fonts has for them.
///
/// It is an answer only: every call takes the font's bytes and reads them itself.
#[derive(Clone, Copy, Debug, PartialEq, Eq, Hash)]
pub struct FontHeader {
    /// How many glyphs the font has, modulo 256. Nothing relies on it.
    pub glyph_count: u8,
    /// Whether [`FontColor::WithBackground`](crate::FontColor::WithBackground) is allowed.
    pub supports_background_color: bool,
    /// Bits of a run of pixels that are not set, 0 to 8.
    pub m0: u8,
    /// Bits of a run of pixels that are set, 0 to 8.
    pub m1: u8,
    /// Bits of a glyph's width, 0 to 8.
    pub bitcnt_w: u8,
    /// Bits of a glyph's height, 0 to 8.
    pub bitcnt_h: u8,
    /// Bits of a glyph's x offset, 1 to 8.
    pub bitcnt_x: u8,
    /// Bits of a glyph's y offset, 1 to 8.
    pub bitcnt_y: u8,
    /// Bits of a glyph's advance, 1 to 8.
    pub bitcnt_d: u8,
    /// Width of the font's bounding box in pixels, 0 or more.
    pub font_bounding_box_width: i8,
    /// Height of the font's bounding box in pixels, 0 or more.
    pub font_bounding_box_height: i8,
    /// Pixels from the place to the bounding box's left side.
    pub font_bounding_box_x_offset: i8,
    /// Pixels from the baseline up to the bounding box's bottom side; usually negative.
    pub font_bounding_box_y_offset: i8,
    /// Pixels of a capital above the baseline.
    pub ascent: i8,
    /// Pixels of a letter such as "g" below the baseline, as a negative number.
    pub descent: i8,
    /// Pixels of a parenthesis above the baseline.
    pub ascent_of_parentheses: i8,
    /// Pixels of a parenthesis below the baseline, as a negative number.
    pub descent_of_parentheses: i8,
    /// Bytes from the end of the header to the glyph of "A".
    pub array_offset_upper_a: u16,
    /// Bytes from the end of the header to the glyph of "a".
    pub array_offset_lower_a: u16,
    /// Bytes from the end of the header to the glyphs from U+0100 up.
    pub array_offset_0x0100: u16,
    /// The default line height: the bounding box's height and one more, 1 to 128.
    pub line_height: u32,
}

/// How many numbers the library stores of a header.
pub(crate) const LEN: usize = 21;

impl FontHeader {
    /// The library stores the fields in their order, and each number is one that its field can
    /// hold.
    pub(crate) const fn from_values(v: &[i64; LEN]) -> Self {
        Self {
            glyph_count: v[0] as u8,
            supports_background_color: v[1] != 0,
            m0: v[2] as u8,
            m1: v[3] as u8,
            bitcnt_w: v[4] as u8,
            bitcnt_h: v[5] as u8,
            bitcnt_x: v[6] as u8,
            bitcnt_y: v[7] as u8,
            bitcnt_d: v[8] as u8,
            font_bounding_box_width: v[9] as i8,
            font_bounding_box_height: v[10] as i8,
            font_bounding_box_x_offset: v[11] as i8,
            font_bounding_box_y_offset: v[12] as i8,
            ascent: v[13] as i8,
            descent: v[14] as i8,
            ascent_of_parentheses: v[15] as i8,
            descent_of_parentheses: v[16] as i8,
            array_offset_upper_a: v[17] as u16,
            array_offset_lower_a: v[18] as u16,
            array_offset_0x0100: v[19] as u16,
            line_height: v[20] as u32,
        }
    }
}
