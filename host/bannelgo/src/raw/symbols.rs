//! The C symbols of the proved library, as include/bannelgo.h has them.

use super::Fields;

extern "C" {
    pub fn bannelgo_check_image(image: *const u8, image_length: usize) -> u64;

    pub fn bannelgo_plain_reading(
        image: *const u8,
        image_length: usize,
        text: *const u8,
        text_length: usize,
    ) -> u64;

    pub fn bannelgo_open(
        image: *const u8,
        image_length: usize,
        text: *const u8,
        text_length: usize,
        buffer: *mut u8,
        buffer_length: usize,
        table: *mut u64,
        table_length: usize,
    ) -> Fields;

    pub fn bannelgo_edit(
        image: *const u8,
        image_length: usize,
        buffer: *mut u8,
        buffer_length: usize,
        n: usize,
        table: *mut u64,
        table_length: usize,
        start: usize,
        end: usize,
        replacement: *const u8,
        replacement_length: usize,
    ) -> Fields;

    pub fn bannelgo_read(
        image: *const u8,
        image_length: usize,
        buffer: *const u8,
        buffer_length: usize,
        n: usize,
        table: *mut u64,
        table_length: usize,
    ) -> Fields;

    pub fn bannelgo_look_up(
        image: *const u8,
        image_length: usize,
        buffer: *const u8,
        buffer_length: usize,
        n: usize,
        table: *const u64,
        table_length: usize,
        rule: usize,
        position: usize,
    ) -> Fields;

    pub fn bannelgo_list(
        image: *const u8,
        image_length: usize,
        buffer: *const u8,
        buffer_length: usize,
        n: usize,
        table: *mut u64,
        table_length: usize,
        rows: *mut u64,
        rows_length: usize,
    ) -> Fields;
}
