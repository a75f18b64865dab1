//! The library's functions. bindings/c/papayahelm.h says what each of them takes, stores and
//! returns.

#[link(name = "c_api", kind = "static")]
unsafe extern "C" {
    pub fn papayahelm_open(font: *const u8, font_len: usize, out: *mut i64, out_len: usize) -> u32;

    pub fn papayahelm_font_box(
        font: *const u8,
        font_len: usize,
        anchor: u32,
        out: *mut i64,
        out_len: usize,
    ) -> u32;

    pub fn papayahelm_measure(
        font: *const u8,
        font_len: usize,
        text: *const u8,
        text_len: usize,
        x: i32,
        y: i32,
        anchor: u32,
        line_height: u32,
        skip: u32,
        out: *mut i64,
        out_len: usize,
    ) -> u32;

    pub fn papayahelm_measure_aligned(
        font: *const u8,
        font_len: usize,
        text: *const u8,
        text_len: usize,
        x: i32,
        y: i32,
        anchor: u32,
        align: u32,
        line_height: u32,
        skip: u32,
        out: *mut i64,
        out_len: usize,
    ) -> u32;

    pub fn papayahelm_draw(
        font: *const u8,
        font_len: usize,
        text: *const u8,
        text_len: usize,
        x: i32,
        y: i32,
        anchor: u32,
        line_height: u32,
        skip: u32,
        background: u32,
        fg: u8,
        bg: u8,
        format: u32,
        width: usize,
        height: usize,
        buffer: *mut u8,
        buffer_len: usize,
        out: *mut i64,
        out_len: usize,
    ) -> u32;

    pub fn papayahelm_draw_aligned(
        font: *const u8,
        font_len: usize,
        text: *const u8,
        text_len: usize,
        x: i32,
        y: i32,
        anchor: u32,
        align: u32,
        line_height: u32,
        skip: u32,
        background: u32,
        fg: u8,
        bg: u8,
        format: u32,
        width: usize,
        height: usize,
        buffer: *mut u8,
        buffer_len: usize,
        out: *mut i64,
        out_len: usize,
    ) -> u32;

    pub fn papayahelm_redraw(
        font: *const u8,
        font_len: usize,
        old_text: *const u8,
        old_text_len: usize,
        new_text: *const u8,
        new_text_len: usize,
        x: i32,
        y: i32,
        anchor: u32,
        align: u32,
        line_height: u32,
        background: u32,
        fg: u8,
        bg: u8,
        clear_color: u8,
        format: u32,
        width: usize,
        height: usize,
        buffer: *mut u8,
        buffer_len: usize,
        out: *mut i64,
        out_len: usize,
    ) -> u32;
}
