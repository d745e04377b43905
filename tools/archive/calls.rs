// The functions of the static archive, called as C calls them. Each call gives back the number that it returns;
// what it stores is in the buffers and numbers that the caller lends.

use crate::declared::{
    vps_bit_rate, vps_buffer_size, vps_ebsp_to_rbsp, vps_layer_page, vps_parse, vps_picture_interval, vps_rbsp_to_ebsp,
    vps_section, vps_sentence, vps_sentence_number, vps_write,
};

// In each call the pointers and lengths are those of slices and numbers that live through it.

pub fn parse(unit: &[u8], work: &mut [u8], record: &mut [u32], length: &mut u64, bits_used: &mut u64) -> u32 {
    let (work, work_length) = (work.as_mut_ptr(), work.len());
    let (record, record_length) = (record.as_mut_ptr(), record.len());
    unsafe { vps_parse(unit.as_ptr(), unit.len(), work, work_length, record, record_length, length, bits_used) }
}

pub fn write(record: &[u32], output: &mut [u8], written: &mut u64) -> u32 {
    unsafe { vps_write(record.as_ptr(), record.len(), output.as_mut_ptr(), output.len(), written) }
}

pub fn section(record: &[u32], number: u32, start: &mut u64, count: &mut u64) -> u32 {
    unsafe { vps_section(record.as_ptr(), record.len(), number, start, count) }
}

pub fn layer_page(record: &[u32], output: &mut [u8], length: &mut u64) -> u32 {
    unsafe { vps_layer_page(record.as_ptr(), record.len(), output.as_mut_ptr(), output.len(), length) }
}

pub fn bit_rate(record: &[u32], entry: u32, sublayer: u32, vcl: u32, schedule: u32, rate: &mut u64) -> u32 {
    unsafe { vps_bit_rate(record.as_ptr(), record.len(), entry, sublayer, vcl, schedule, rate) }
}

pub fn buffer_size(record: &[u32], entry: u32, sublayer: u32, vcl: u32, schedule: u32, size: &mut u64) -> u32 {
    unsafe { vps_buffer_size(record.as_ptr(), record.len(), entry, sublayer, vcl, schedule, size) }
}

pub fn picture_interval(record: &[u32], entry: u32, sublayer: u32, known: &mut u32, microseconds: &mut u64) -> u32 {
    unsafe { vps_picture_interval(record.as_ptr(), record.len(), entry, sublayer, known, microseconds) }
}

pub fn ebsp_to_rbsp(source: &[u8], output: &mut [u8], length: &mut u64) -> u32 {
    unsafe { vps_ebsp_to_rbsp(source.as_ptr(), source.len(), output.as_mut_ptr(), output.len(), length) }
}

pub fn rbsp_to_ebsp(source: &[u8], output: &mut [u8], length: &mut u64) -> u32 {
    unsafe { vps_rbsp_to_ebsp(source.as_ptr(), source.len(), output.as_mut_ptr(), output.len(), length) }
}

pub fn sentence(number: u32, output: &mut [u8], length: &mut u64) -> u32 {
    unsafe { vps_sentence(number, output.as_mut_ptr(), output.len(), length) }
}

pub fn sentence_number(sentence: &[u8]) -> u32 {
    unsafe { vps_sentence_number(sentence.as_ptr(), sentence.len()) }
}
