//! The functions of the archive, as C calls them: a slice crosses as its pointer and its length, in elements.
#![allow(unsafe_code)]

unsafe extern "C" {
    pub(crate) fn vps_parse(
        unit: *const u8,
        unit_length: usize,
        work: *mut u8,
        work_length: usize,
        record: *mut u32,
        record_length: usize,
        length: *mut u64,
        bits_used: *mut u64,
    ) -> u32;
    pub(crate) fn vps_write(
        record: *const u32,
        record_length: usize,
        output: *mut u8,
        output_length: usize,
        written: *mut u64,
    ) -> u32;
    pub(crate) fn vps_section(
        record: *const u32,
        record_length: usize,
        number: u32,
        start: *mut u64,
        count: *mut u64,
    ) -> u32;
    pub(crate) fn vps_layer_page(
        record: *const u32,
        record_length: usize,
        output: *mut u8,
        output_length: usize,
        length: *mut u64,
    ) -> u32;
    pub(crate) fn vps_bit_rate(
        record: *const u32,
        record_length: usize,
        entry: u32,
        sublayer: u32,
        vcl: u32,
        schedule: u32,
        rate: *mut u64,
    ) -> u32;
    pub(crate) fn vps_buffer_size(
        record: *const u32,
        record_length: usize,
        entry: u32,
        sublayer: u32,
        vcl: u32,
        schedule: u32,
        size: *mut u64,
    ) -> u32;
    pub(crate) fn vps_picture_interval(
        record: *const u32,
        record_length: usize,
        entry: u32,
        sublayer: u32,
        known: *mut u32,
        microseconds: *mut u64,
    ) -> u32;
    pub(crate) fn vps_ebsp_to_rbsp(
        source: *const u8,
        source_length: usize,
        output: *mut u8,
        output_length: usize,
        length: *mut u64,
    ) -> u32;
    pub(crate) fn vps_rbsp_to_ebsp(
        source: *const u8,
        source_length: usize,
        output: *mut u8,
        output_length: usize,
        length: *mut u64,
    ) -> u32;
    pub(crate) fn vps_sentence(number: u32, output: *mut u8, output_length: usize, length: *mut u64) -> u32;
    pub(crate) fn vps_sentence_number(sentence: *const u8, sentence_length: usize) -> u32;
}
