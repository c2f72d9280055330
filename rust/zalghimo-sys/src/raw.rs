//! The functions as C has them, in the header's order.

use crate::{Done, Earlier, Field, File, Header, Le, Radiotap};
use crate::{Record, Stream, Survey, Taken, Time, TimeField, Word, Written};

extern "C" {
    pub fn zalghimo_btsnoop_header(input: *const u8, length: usize) -> Header;
    pub fn zalghimo_btsnoop_check(input: *const u8, length: usize) -> File;
    pub fn zalghimo_btsnoop_record(input: *const u8, length: usize, place: usize) -> Record;
    pub fn zalghimo_btsnoop_survey(
        input: *const u8,
        length: usize,
        place: usize,
        number: usize,
    ) -> Survey;
    pub fn zalghimo_btsnoop_earlier(
        first: *const u8,
        first_length: usize,
        first_place: usize,
        second: *const u8,
        second_length: usize,
        second_place: usize,
    ) -> Earlier;
    pub fn zalghimo_btsnoop_read_time(field: i64) -> Time;
    pub fn zalghimo_btsnoop_drops(earlier: u32, later: u32) -> u32;
    pub fn zalghimo_btsnoop_tally(
        tally: *mut u64,
        original: u32,
        included: u32,
        flags: u32,
        drops: u32,
    ) -> Done;
    pub fn zalghimo_stream_fresh() -> Stream;
    pub fn zalghimo_stream_take(state: Stream, chunk: *const u8, length: usize) -> Taken;
    pub fn zalghimo_stream_end(state: Stream) -> Taken;
    pub fn zalghimo_btsnoop_write_time(seconds: i64, microseconds: u32) -> TimeField;
    pub fn zalghimo_btsnoop_write_header(
        output: *mut u8,
        length: usize,
        place: usize,
        datalink: u32,
    ) -> Written;
    pub fn zalghimo_btsnoop_write_record(
        output: *mut u8,
        length: usize,
        place: usize,
        original: u32,
        flags: u32,
        drops: u32,
        time: i64,
        packet: *const u8,
        packet_length: usize,
    ) -> Written;
    pub fn zalghimo_le_read(input: *const u8, length: usize) -> Le;
    pub fn zalghimo_le_write(
        output: *mut u8,
        length: usize,
        place: usize,
        rf_channel: u8,
        signal: i8,
        noise: i8,
        offences: u8,
        reference: u32,
        flags: u16,
        packet: *const u8,
        packet_length: usize,
    ) -> Written;
    pub fn zalghimo_radiotap_read(input: *const u8, length: usize, edition: u32) -> Radiotap;
    pub fn zalghimo_radiotap_word(input: *const u8, length: usize, number: usize) -> Word;
    pub fn zalghimo_radiotap_field(
        input: *const u8,
        length: usize,
        edition: u32,
        number: usize,
    ) -> Field;
    pub fn zalghimo_radiotap_fields(
        input: *const u8,
        length: usize,
        edition: u32,
        fields: *mut u64,
        fields_length: usize,
    ) -> Radiotap;
    pub fn zalghimo_radiotap_write(
        output: *mut u8,
        length: usize,
        place: usize,
        edition: u32,
        presence: u32,
        values: *const u8,
        values_length: usize,
    ) -> Written;
}
