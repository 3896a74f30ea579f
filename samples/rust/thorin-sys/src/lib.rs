#![doc = include_str!("../README.md")]
#![no_std]
#![allow(non_camel_case_types)]

pub const THORIN_DONE: i32 = 0;
pub const THORIN_ABSENT: i32 = 1;
pub const THORIN_NO_SUCH_KIND: i32 = 2;
pub const THORIN_MALFORMED_FILE: i32 = 3;
pub const THORIN_MALFORMED_INDEX: i32 = 4;
pub const THORIN_RANGE_OUTSIDE: i32 = 5;
pub const THORIN_MALFORMED_UNIT: i32 = 6;
pub const THORIN_NO_SUCH_SECTION: i32 = 7;
pub const THORIN_NO_SUCH_STRING: i32 = 8;
pub const THORIN_MALFORMED_STRING: i32 = 9;
pub const THORIN_TOO_SMALL: i32 = 10;
pub const THORIN_REFUSED: i32 = 11;
pub const THORIN_UNFINISHED: i32 = 12;
pub const THORIN_NO_MEMORY: i32 = 13;
pub const THORIN_NOT_COMPRESSED: i32 = 14;
pub const THORIN_DAMAGED: i32 = 15;
pub const THORIN_NOT_ZLIB: i32 = 16;
pub const THORIN_UNWRITABLE: i32 = 17;
pub const THORIN_DAMAGED_ZSTD: i32 = 18;

pub const THORIN_COMPILATION: u8 = 1;
pub const THORIN_TYPE_UNIT: u8 = 2;

pub const THORIN_INFO: u8 = 0;
pub const THORIN_TYPES: u8 = 1;
pub const THORIN_ABBREVIATIONS: u8 = 2;
pub const THORIN_LINE: u8 = 3;
pub const THORIN_LOC: u8 = 4;
pub const THORIN_LOCLISTS: u8 = 5;
pub const THORIN_RNGLISTS: u8 = 6;
pub const THORIN_STR_OFFSETS: u8 = 7;
pub const THORIN_MACINFO: u8 = 8;
pub const THORIN_MACRO: u8 = 9;

#[repr(C)]
#[derive(Clone, Copy, Debug)]
pub struct thorin_bytes {
    pub at: *const u8,
    pub size: usize,
}

#[repr(C)]
#[derive(Clone, Copy, Debug, Default, PartialEq, Eq)]
pub struct thorin_range {
    pub offset: u64,
    pub size: u64,
}

#[repr(C)]
#[derive(Clone, Copy, Debug, Default, PartialEq, Eq)]
pub struct thorin_unit {
    pub info: thorin_range,
    pub types: thorin_range,
    pub abbreviations: thorin_range,
    pub line: thorin_range,
    pub loc: thorin_range,
    pub loclists: thorin_range,
    pub rnglists: thorin_range,
    pub str_offsets: thorin_range,
    pub macinfo: thorin_range,
    pub macros: thorin_range,
    pub row: u32,
    pub slots: u32,
    pub version: u16,
    pub offset_size: u8,
    pub address_size: u8,
}

#[repr(C)]
#[derive(Clone, Copy, Debug, Default, PartialEq, Eq)]
pub struct thorin_package {
    pub info: thorin_range,
    pub types: thorin_range,
    pub abbreviations: thorin_range,
    pub line: thorin_range,
    pub loc: thorin_range,
    pub loclists: thorin_range,
    pub rnglists: thorin_range,
    pub str_offsets: thorin_range,
    pub macinfo: thorin_range,
    pub macros: thorin_range,
    pub strings: thorin_range,
    pub cu_index: thorin_range,
    pub tu_index: thorin_range,
    pub big_endian: u64,
}

#[repr(C)]
#[derive(Clone, Copy, Debug, Default, PartialEq, Eq)]
pub struct thorin_name {
    pub id: u64,
    pub row: u32,
    pub kind: u8,
}

#[repr(C)]
#[derive(Clone, Copy, Debug, Default, PartialEq, Eq)]
pub struct thorin_lookup {
    pub id: u64,
    pub kind: u8,
    pub status: i32,
    pub unit: thorin_unit,
}

#[repr(C)]
#[derive(Clone, Copy, Debug, Default, PartialEq, Eq)]
pub struct thorin_skeleton {
    pub id: u64,
    pub path_size: u64,
    pub kind: u8,
}

#[repr(C)]
#[derive(Clone, Copy, Debug)]
pub struct thorin_report {
    pub size: u64,
    pub input: u64,
    pub differing: u64,
    pub packs_again: u32,
    pub fault: u32,
    pub text_size: u32,
    pub text: [u8; 256],
}

extern "C" {
    pub fn thorin_version() -> u32;
    pub fn thorin_status_text(status: i32, text: *mut u8, room: usize) -> usize;
    pub fn thorin_find(bytes: *const u8, size: usize, kind: u8, id: u64, found: *mut thorin_unit) -> i32;
    pub fn thorin_find_each(bytes: *const u8, size: usize, lookups: *mut thorin_lookup, count: usize) -> i32;
    pub fn thorin_find_rows(bytes: *const u8, size: usize, lookups: *mut thorin_lookup, count: usize) -> i32;
    pub fn thorin_content(bytes: *const u8, size: usize, kind: u8, id: u64, section: u8, found: *mut thorin_bytes) -> i32;
    pub fn thorin_string(bytes: *const u8, size: usize, kind: u8, id: u64, index: u64, found: *mut thorin_bytes) -> i32;
    pub fn thorin_unit_count(bytes: *const u8, size: usize, count: *mut u64) -> i32;
    pub fn thorin_list(bytes: *const u8, size: usize, names: *mut thorin_name, room: usize, count: *mut u64) -> i32;
    pub fn thorin_open(bytes: *const u8, size: usize, package: *mut thorin_package) -> i32;
    pub fn thorin_find_in(package: *const thorin_package, bytes: *const u8, size: usize, kind: u8, id: u64, found: *mut thorin_unit) -> i32;
    pub fn thorin_find_row_in(package: *const thorin_package, bytes: *const u8, size: usize, kind: u8, id: u64, found: *mut thorin_unit) -> i32;
    pub fn thorin_content_in(package: *const thorin_package, bytes: *const u8, size: usize, kind: u8, id: u64, section: u8, found: *mut thorin_bytes) -> i32;
    pub fn thorin_string_in(package: *const thorin_package, bytes: *const u8, size: usize, kind: u8, id: u64, index: u64, found: *mut thorin_bytes) -> i32;
    pub fn thorin_list_in(package: *const thorin_package, bytes: *const u8, size: usize, names: *mut thorin_name, room: usize, count: *mut u64) -> i32;
    pub fn thorin_decompress(bytes: *const u8, size: usize, out: *mut u8, room: usize, length: *mut u64) -> i32;
    pub fn thorin_skeletons(bytes: *const u8, size: usize, names: *mut thorin_skeleton, room: usize, paths: *mut u8, paths_room: usize, count: *mut u64, report: *mut thorin_report) -> i32;
    pub fn thorin_pack(inputs: *const thorin_bytes, count: usize, out: *mut u8, room: usize, report: *mut thorin_report) -> i32;
    pub fn thorin_differing_types(inputs: *const thorin_bytes, count: usize, types: *mut u64, room: usize, report: *mut thorin_report) -> i32;
}

const _: () = {
    use core::mem::{offset_of, size_of};
    assert!(size_of::<thorin_bytes>() == 16);
    assert!(size_of::<thorin_unit>() == 176);
    assert!(size_of::<thorin_package>() == 216);
    assert!(size_of::<thorin_name>() == 16);
    assert!(size_of::<thorin_lookup>() == 192);
    assert!(offset_of!(thorin_lookup, unit) == 16);
    assert!(size_of::<thorin_skeleton>() == 24);
    assert!(size_of::<thorin_report>() == 296);
    assert!(offset_of!(thorin_report, text) == 36);
};
