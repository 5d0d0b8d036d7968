//! libgrasp.a as Rust sees it: the functions of include/grasp.h, and the sizes and places of what
//! only a host keeps. The header says what each function asks of its pointers.

/// The bytes of a relay table.
pub const TABLE_BYTES: usize = 2_048;

/// A record over numbers: how many there are, and where some of them stand.
pub const NUMBER_FIELDS: usize = 6;
pub const NUMBER_INTERFACES: usize = 2;
pub const NUMBER_CLOCK: usize = 4;
pub const NUMBER_TALLY: usize = 5;

/// The numbers of a node call's answer, of which this is the verdict's place.
pub const ANSWER_FIELDS: usize = 4;
pub const ANSWER_VERDICT: usize = 0;

/// The numbers of a negotiation's state.
pub const STATE_FIELDS: usize = 4;

/// A node's record that calls change in place.
#[repr(C)]
#[derive(Clone, Copy, Default, PartialEq, Eq)]
pub struct Record {
    pub address: [u8; 16],
    pub port: u16,
    pub ttl: u32,
    pub interfaces: u8,
    pub links: u8,
    pub clock: u64,
    pub tally: u64,
}

#[link(name = "grasp", kind = "static")]
extern "C" {
    pub fn grasp_record_fresh(
        node: *mut Record,
        address: *const u8,
        port: u16,
        ttl: u32,
        interfaces: u64,
        links: u64,
    ) -> u8;
    pub fn grasp_record_set_links(node: *mut Record, links: u64) -> u8;
    pub fn grasp_record_call(
        node: *mut Record,
        table: *mut u8,
        table_len: usize,
        clock: u64,
        interface: u64,
        names: *const u8,
        names_len: usize,
        message: *const u8,
        len: usize,
        out: *mut u8,
        out_len: usize,
        answer: *mut u64,
    ) -> u8;
    pub fn grasp_read(bytes: *const u8, len: usize, fields: *mut u64) -> u8;
    pub fn grasp_locator(bytes: *const u8, len: usize, at: usize, fields: *mut u64) -> usize;
    pub fn grasp_pair(bytes: *const u8, len: usize, at: usize, fields: *mut u64) -> usize;
    pub fn grasp_write(
        source: *const u8,
        len: usize,
        list: *const u64,
        list_len: usize,
        fields: *const u64,
        out: *mut u8,
        out_len: usize,
        length: *mut u64,
    ) -> u8;
    pub fn grasp_step(state: *mut u64, bytes: *const u8, len: usize, side: u64) -> u8;
    pub fn grasp_fresh(
        address: *const u8,
        port: u16,
        ttl: u32,
        interfaces: u64,
        links: u64,
        numbers: *mut u64,
    ) -> u8;
    pub fn grasp_set_links(address: *const u8, numbers: *mut u64, links: u64) -> u8;
    pub fn grasp_node_call(
        address: *const u8,
        numbers: *mut u64,
        table: *mut u8,
        table_len: usize,
        clock: u64,
        interface: u64,
        names: *const u8,
        names_len: usize,
        message: *const u8,
        len: usize,
        out: *mut u8,
        out_len: usize,
        answer: *mut u64,
    ) -> u8;
}
