//! CBOR heads, items and texts (RFC 8949, RFC 3629) under the house limits (rules 2).

/// Refusal 2 (rules 4.3): the bytes end inside an item.
pub const ENDED: u8 = 2;
/// Refusal 3 (rules 4.3): additional information 28 to 30, or a two-byte simple value below 32.
pub const RESERVED: u8 = 3;
/// Refusal 4 (rules 4.3): additional information 31.
pub const INDEFINITE: u8 = 4;
/// Refusal 5 (rules 2.7): a head longer than needed.
pub const LONG: u8 = 5;
/// Refusal 6 (rules 2.3): level 9 reached.
pub const DEEP: u8 = 6;

/// The deepest level that an array, map or tag may stand at (rules 2.3).
const DEEPEST: usize = 8;

/// A refusal's number, and the place of the faulty head, or for 2 the length of the bytes.
#[derive(Clone, Copy, Debug, PartialEq, Eq)]
pub struct Refusal {
    pub number: u8,
    pub place: usize,
}

/// A head (RFC 8949, section 3); `length` is in bytes.
#[derive(Clone, Copy, Debug, PartialEq, Eq)]
pub struct Head {
    pub major: u8,
    pub argument: u64,
    pub length: usize,
}

/// The head at the start of the bytes.
pub fn head(bytes: &[u8]) -> Result<Head, Refusal> {
    let refused = |number, place| Err(Refusal { number, place });
    let Some((&first, rest)) = bytes.split_first() else {
        return refused(ENDED, 0);
    };
    let (major, information) = (first >> 5, first & 0x1F);
    let width = match information {
        0..=23 => 0,
        24..=27 => 1 << (information - 24),
        28..=30 => return refused(RESERVED, 0),
        _ => return refused(INDEFINITE, 0),
    };
    let Some(following) = rest.get(..width) else {
        return refused(ENDED, bytes.len());
    };
    let argument = match width {
        0 => u64::from(information),
        _ => big_endian(following),
    };
    // RFC 8949, section 3.3: F8 00 to F8 1F are not well-formed; longer heads of type 7 are floats.
    if major == 7 && width == 1 && argument < 32 {
        return refused(RESERVED, 0);
    }
    if major < 7 && width > shortest_width(argument) {
        return refused(LONG, 0);
    }
    Ok(Head {
        major,
        argument,
        length: 1 + width,
    })
}

/// Where the first whole item ends when it stands under `levels` open levels.
pub fn item(levels: usize, bytes: &[u8]) -> Result<usize, Refusal> {
    item_at(levels, bytes, 0)
}

/// The same for the item that starts at `start`; the limit on levels bounds the recursion.
fn item_at(levels: usize, bytes: &[u8], start: usize) -> Result<usize, Refusal> {
    let head = head(&bytes[start..]).map_err(|refusal| Refusal {
        number: refusal.number,
        place: start + refusal.place,
    })?;
    let mut end = start + head.length;
    let argument = u128::from(head.argument);
    let held = match head.major {
        2 | 3 => return string_end(bytes, end, argument),
        4 => argument,
        5 => 2 * argument,
        6 => 1,
        _ => return Ok(end),
    };
    if levels >= DEEPEST {
        return Err(Refusal {
            number: DEEP,
            place: start,
        });
    }
    // A false claim of up to 2^65 items ends at the first missing one, as each item takes a byte.
    for _ in 0..held {
        end = item_at(levels + 1, bytes, end)?;
    }
    Ok(end)
}

/// Where a string of this length ends whose contents begin at `start`.
fn string_end(bytes: &[u8], start: usize, length: u128) -> Result<usize, Refusal> {
    if length > (bytes.len() - start) as u128 {
        return Err(Refusal {
            number: ENDED,
            place: bytes.len(),
        });
    }
    Ok(start + length as usize)
}

/// Whether the bytes are UTF-8 (RFC 3629), as the standard library judges it.
pub fn is_utf8(bytes: &[u8]) -> bool {
    std::str::from_utf8(bytes).is_ok()
}

/// Stores the shortest head of major types 0 to 6 from `at` on and gives the position after it,
/// or leaves the buffer alone and gives its length + 1.
pub fn put_head(buffer: &mut [u8], at: usize, major: u8, argument: u64) -> usize {
    let nowhere = buffer.len() + 1;
    let width = shortest_width(argument);
    let information = match width {
        0 => argument as u8,
        1 => 24,
        2 => 25,
        4 => 26,
        _ => 27,
    };
    let end = at.saturating_add(1 + width);
    match buffer.get_mut(at..end) {
        Some(target) if major <= 6 => {
            target[0] = major << 5 | information;
            target[1..].copy_from_slice(&argument.to_be_bytes()[8 - width..]);
            end
        }
        _ => nowhere,
    }
}

/// How many bytes follow the first in the shortest head with this argument (RFC 8949, section 4.1).
fn shortest_width(argument: u64) -> usize {
    match argument {
        0..=23 => 0,
        24..=0xFF => 1,
        0x100..=0xFFFF => 2,
        0x1_0000..=0xFFFF_FFFF => 4,
        _ => 8,
    }
}

/// The number that up to 8 bytes say in network byte order.
pub fn big_endian(bytes: &[u8]) -> u64 {
    bytes
        .iter()
        .fold(0, |number, &byte| number << 8 | u64::from(byte))
}

#[cfg(test)]
mod tests;
