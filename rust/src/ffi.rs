//! The functions of libbs_sched_c.a, as `include/bs_sched.h` declares them: what each answers, and in what order, stands there. The safe
//! interface is the crate's root; this module is for what it leaves out.
//!
//! ```
//! use bs_sched::ffi;
//! let mut station = [0u32; ffi::STATION_WORDS];
//! // Safety: the pointer and the length are those of one array, lent for the call.
//! let n = unsafe { ffi::bs_sched_new(station.as_mut_ptr(), station.len(), 0, 1, 1, 1) };
//! assert_eq!(n, 0);
//! assert_eq!(station[..4], [1, 1, 1, 0]);
//! ```
//!
//! # Safety
//!
//! Each pointer is valid for its length (also where that is 0), aligned and not null, and what it points at is initialised; what is
//! written overlaps no other buffer of the call, and nobody else touches the buffers during the call.

/// The words of a station.
pub const STATION_WORDS: usize = 228;
/// The words of a record.
pub const RECORD_WORDS: usize = 23;
/// The words of a queue, 64 records.
pub const QUEUE_WORDS: usize = 1472;
/// The octets of an SDU store, 64 cells of 256.
pub const STORE_OCTETS: usize = 16384;
/// The octets of a block, 268 bits.
pub const BLOCK_OCTETS: usize = 34;
/// The words of a header.
pub const HEADER_WORDS: usize = 24;
/// The most headers that a block has.
pub const BLOCK_HEADERS: usize = 16;
/// The words of the headers of a block.
pub const HEADERS_WORDS: usize = 384;

/// The answer to a request.
#[repr(C)]
#[derive(Clone, Copy)]
pub struct Grant {
    /// Document 01's number.
    pub refusal: u8,
    /// The capacity code.
    pub capacity: u8,
    /// The usable slots passed over.
    pub delay: u8,
    /// The usage marker, 0 if none.
    pub usage_marker: u8,
}

/// The answer to a build.
#[repr(C)]
#[derive(Clone, Copy)]
pub struct Built {
    /// Document 01's number.
    pub refusal: u8,
    /// 1 if the block is written.
    pub built: u8,
    /// How many tags come back.
    pub tag_count: u8,
    /// The tags of the records that are finished.
    pub tags: [u16; 16],
}

/// The owners of a slot, each 0 for none, else the number and 1.
#[repr(C)]
#[derive(Clone, Copy)]
pub struct Owners {
    /// Document 01's number.
    pub refusal: u8,
    /// The owner of the whole slot.
    pub both: u32,
    /// The owner of the first half.
    pub first: u32,
    /// The owner of the second half.
    pub second: u32,
}

/// The usage of a slot.
#[repr(C)]
#[derive(Clone, Copy)]
pub struct SlotUsage {
    /// Document 01's number.
    pub refusal: u8,
    /// 0 no half taken, 1 first only, 2 both, 3 any taken with a marker.
    pub usage: u8,
    /// The usage marker, 0 if none.
    pub usage_marker: u8,
}

/// The answer of the block reader.
#[repr(C)]
#[derive(Clone, Copy)]
pub struct Read {
    /// Document 01's number.
    pub refusal: u8,
    /// The headers listed.
    pub count: u8,
}

/// The answer of the header writer.
#[repr(C)]
#[derive(Clone, Copy)]
pub struct Written {
    /// Document 01's number.
    pub refusal: u8,
    /// The bit position behind the header.
    pub end: u64,
}

/// The answer of fill removal.
#[repr(C)]
#[derive(Clone, Copy)]
pub struct Fill {
    /// Document 01's number.
    pub refusal: u8,
    /// The number of fill bits.
    pub bits: u64,
}

// A slice is passed as its pointer and its length.
unsafe extern "C" {
    /// A new station.
    pub fn bs_sched_new(station: *mut u32, station_len: usize, h: u16, m: u8, f: u8, t: u8) -> u8;
    /// One slot on.
    pub fn bs_sched_advance(station: *mut u32, station_len: usize) -> u8;
    /// A request for capacity.
    pub fn bs_sched_request(
        station: *mut u32,
        station_len: usize,
        queue: *mut u32,
        queue_len: usize,
        store: *const u8,
        store_len: usize,
        timeslot: u8,
        code: u8,
        kind: u8,
        number: u32,
    ) -> Grant;
    /// An acknowledgement of a random access is queued.
    pub fn bs_sched_enqueue_ack(
        station: *mut u32,
        station_len: usize,
        queue: *mut u32,
        queue_len: usize,
        store: *const u8,
        store_len: usize,
        timeslot: u8,
        kind: u8,
        number: u32,
    ) -> u8;
    /// A record is queued with its SDU.
    pub fn bs_sched_enqueue(
        station: *mut u32,
        station_len: usize,
        queue: *mut u32,
        queue_len: usize,
        store: *mut u8,
        store_len: usize,
        timeslot: u8,
        record: *const u32,
        record_len: usize,
        sdu: *const u8,
        sdu_len: usize,
    ) -> u8;
    /// The block of the current slot.
    pub fn bs_sched_build(
        station: *mut u32,
        station_len: usize,
        queue: *mut u32,
        queue_len: usize,
        store: *mut u8,
        store_len: usize,
        block: *mut u8,
        block_len: usize,
    ) -> Built;
    /// Who holds the slot at a time.
    pub fn bs_sched_slot_owner(station: *const u32, station_len: usize, h: u16, m: u8, f: u8, t: u8) -> Owners;
    /// How the slot at a time is used.
    pub fn bs_sched_usage(station: *const u32, station_len: usize, h: u16, m: u8, f: u8, t: u8) -> SlotUsage;
    /// The headers of a block.
    pub fn bs_sched_read_block(block: *const u8, block_len: usize, headers: *mut u32, headers_len: usize) -> Read;
    /// One MAC-RESOURCE header into a buffer.
    pub fn bs_sched_write_header(
        buf: *mut u8,
        buf_len: usize,
        at: u64,
        header: *const u32,
        header_len: usize,
    ) -> Written;
    /// The fill bits at the end of a run of bits.
    pub fn bs_sched_fill_bits(buf: *const u8, buf_len: usize, start: u64, end: u64) -> Fill;
}
