//! Functions of C: the proved library's, libcbor's, and the thread's clock. All unsafe code is here.

use std::hint::black_box;
use std::mem::MaybeUninit;
use std::time::Duration;

use archive::{grasp_locator, grasp_node_call, grasp_pair, grasp_read, grasp_write};
use archive::{ANSWER_FIELDS, ANSWER_VERDICT, NUMBER_FIELDS};
use second::block::layout::{FIELDS, LIST, LIST_AT, LIST_MANY, LOCATOR_FIELDS, PAIRS, PAIR_FIELDS};
use second::message::MOST_BYTES;

#[link(name = "cbor")]
extern "C" {
    fn cbor_load(bytes: *const u8, len: usize, result: *mut LoadResult) -> *mut LoadedItem;
    fn cbor_decref(item: *mut *mut LoadedItem);
}

extern "C" {
    fn clock_gettime(clock: i32, time: *mut Timespec) -> i32;
}

/// C's struct timespec, and the clock of the time that this thread ran, on 64-bit Linux.
#[repr(C)]
struct Timespec {
    seconds: i64,
    nanoseconds: i64,
}

const THREAD_CLOCK: i32 = 3;

/// libcbor's cbor_load_result.
#[repr(C)]
struct LoadResult {
    position: usize,
    code: u32,
    read: usize,
}

/// libcbor's cbor_item_t, of which only the place is used here.
#[repr(C)]
struct LoadedItem {
    _private: [u8; 0],
}

/// The block that grasp_read fills, if it accepts the message; it is not cleared first.
fn block(bytes: &[u8]) -> Option<[u64; FIELDS]> {
    let mut block = MaybeUninit::<[u64; FIELDS]>::uninit();
    // SAFETY: the slice is as long as said and the block has room; 0 says that it was filled.
    unsafe {
        match grasp_read(bytes.as_ptr(), bytes.len(), block.as_mut_ptr().cast()) {
            0 => Some(block.assume_init()),
            _ => None,
        }
    }
}

/// Whether the proved reader accepts the message.
pub fn read(bytes: &[u8]) -> bool {
    let mut block = MaybeUninit::<[u64; FIELDS]>::uninit();
    // SAFETY: as above.
    let number = unsafe { grasp_read(bytes.as_ptr(), bytes.len(), block.as_mut_ptr().cast()) };
    black_box(&block);
    number == 0
}

/// The same, and then each locator or pair of the message.
pub fn read_with_list(bytes: &[u8]) -> bool {
    let Some(block) = block(bytes) else {
        return false;
    };
    let mut at = block[LIST_AT] as usize;
    for _ in 0..block[LIST_MANY] {
        at = match block[LIST] {
            PAIRS => step::<PAIR_FIELDS>(grasp_pair, bytes, at),
            _ => step::<LOCATOR_FIELDS>(grasp_locator, bytes, at),
        };
    }
    black_box(at) <= bytes.len()
}

/// The place after the element at this one.
fn step<const N: usize>(
    function: unsafe extern "C" fn(*const u8, usize, usize, *mut u64) -> usize,
    bytes: &[u8],
    at: usize,
) -> usize {
    let mut block = MaybeUninit::<[u64; N]>::uninit();
    // SAFETY: as above; N is the size of the function's block.
    let after = unsafe { function(bytes.as_ptr(), bytes.len(), at, block.as_mut_ptr().cast()) };
    black_box(&block);
    after
}

/// The length of what the proved writer writes, or the number of its refusal.
pub fn write(
    source: &[u8],
    list: &[u64],
    fields: &[u64; FIELDS],
    out: &mut [u8],
) -> Result<usize, u8> {
    let mut length = 0;
    // SAFETY: every slice is as long as said, and all are memory of their own.
    let number = unsafe {
        grasp_write(
            source.as_ptr(),
            source.len(),
            list.as_ptr(),
            list.len(),
            fields.as_ptr(),
            out.as_mut_ptr(),
            out.len(),
            &mut length,
        )
    };
    match number {
        0 => Ok(length as usize),
        number => Err(number),
    }
}

/// What a host keeps of a node, and the buffers that it lends.
pub struct Host {
    pub address: [u8; 16],
    pub numbers: [u64; NUMBER_FIELDS],
    pub table: Vec<u8>,
    pub out: [u8; MOST_BYTES],
}

impl Host {
    /// The verdict's number, or the number of the refusal.
    pub fn call(
        &mut self,
        clock: u64,
        interface: u64,
        names: &[u8],
        message: &[u8],
    ) -> Result<u8, u8> {
        let mut answer = MaybeUninit::<[u64; ANSWER_FIELDS]>::uninit();
        // SAFETY: as above; the record has six numbers and the answer four, which 0 says to be filled.
        unsafe {
            let number = grasp_node_call(
                self.address.as_ptr(),
                self.numbers.as_mut_ptr(),
                self.table.as_mut_ptr(),
                self.table.len(),
                clock,
                interface,
                names.as_ptr(),
                names.len(),
                message.as_ptr(),
                message.len(),
                self.out.as_mut_ptr(),
                self.out.len(),
                answer.as_mut_ptr().cast(),
            );
            match number {
                0 => Ok(answer.assume_init()[ANSWER_VERDICT] as u8),
                number => Err(number),
            }
        }
    }
}

/// libcbor's tree of items, made and given back.
pub fn libcbor(bytes: &[u8]) -> bool {
    let mut result = MaybeUninit::<LoadResult>::uninit();
    // SAFETY: the slice is as long as said; an item that is given is given back once.
    unsafe {
        let mut item = cbor_load(bytes.as_ptr(), bytes.len(), result.as_mut_ptr());
        let loaded = !item.is_null();
        if loaded {
            cbor_decref(&mut item);
        }
        loaded
    }
}

/// How long this thread has run so far, which leaves out the time when others had its core.
pub fn run_time() -> Duration {
    let mut time = MaybeUninit::<Timespec>::uninit();
    // SAFETY: the time has room; 0 says that it was filled.
    let time = unsafe {
        assert_eq!(clock_gettime(THREAD_CLOCK, time.as_mut_ptr()), 0);
        time.assume_init()
    };
    Duration::new(time.seconds as u64, time.nanoseconds as u32)
}
