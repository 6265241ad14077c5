//! The functions of libberduzhika.a as they are, by numbers. The gate holds these declarations to the library's source and to
//! include/berduzhika.h: names, order and widths.

pub const FRAME_DIST: u32 = 1;
pub const FRAME_REDIST: u32 = 2;
pub const SIDE_NON_SECURE: u32 = 1;
pub const SIDE_SECURE: u32 = 2;
pub const READ: u32 = 1;
pub const WRITE: u32 = 2;

extern "C" {
    pub fn berduzhika_access(
        dist: *mut u8,
        dist_len: usize,
        redist: *mut u8,
        redist_len: usize,
        dist_presence: *const u32,
        dist_presence_len: usize,
        redist_presence: *const u32,
        redist_presence_len: usize,
        lines: u32,
        espi: u32,
        eppi: u32,
        mbis: u32,
        frame: u32,
        side: u32,
        way: u32,
        width: u32,
        offset: u32,
        value: u32,
    ) -> u64;

    pub fn berduzhika_wire(
        dist: *mut u8,
        dist_len: usize,
        redist: *mut u8,
        redist_len: usize,
        dist_presence: *const u32,
        dist_presence_len: usize,
        redist_presence: *const u32,
        redist_presence_len: usize,
        lines: u32,
        espi: u32,
        eppi: u32,
        mbis: u32,
        intid: u32,
        level: u32,
    ) -> u64;

    pub fn berduzhika_activate(
        dist: *mut u8,
        dist_len: usize,
        redist: *mut u8,
        redist_len: usize,
        dist_presence: *const u32,
        dist_presence_len: usize,
        redist_presence: *const u32,
        redist_presence_len: usize,
        lines: u32,
        espi: u32,
        eppi: u32,
        mbis: u32,
        side: u32,
        intid: u32,
    ) -> u64;

    pub fn berduzhika_deactivate(
        dist: *mut u8,
        dist_len: usize,
        redist: *mut u8,
        redist_len: usize,
        dist_presence: *const u32,
        dist_presence_len: usize,
        redist_presence: *const u32,
        redist_presence_len: usize,
        lines: u32,
        espi: u32,
        eppi: u32,
        mbis: u32,
        side: u32,
        intid: u32,
    ) -> u64;

    pub fn berduzhika_reset(
        dist: *mut u8,
        dist_len: usize,
        redist: *mut u8,
        redist_len: usize,
        dist_presence: *const u32,
        dist_presence_len: usize,
        redist_presence: *const u32,
        redist_presence_len: usize,
        lines: u32,
        espi: u32,
        eppi: u32,
        mbis: u32,
    ) -> u64;
}
