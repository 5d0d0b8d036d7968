use super::*;

fn refused<T>(number: u8, place: usize) -> Result<T, Refusal> {
    Err(Refusal { number, place })
}

fn headed(major: u8, argument: u64, length: usize) -> Result<Head, Refusal> {
    Ok(Head {
        major,
        argument,
        length,
    })
}

/// An item inside `depth` arrays of one item each.
fn nested(depth: usize, inside: &[u8]) -> Vec<u8> {
    [vec![0x81; depth], inside.to_vec()].concat()
}

#[test]
fn heads_are_read() {
    assert_eq!(head(&[0x00]), headed(0, 0, 1));
    assert_eq!(head(&[0x37, 0xFF]), headed(1, 23, 1));
    assert_eq!(head(&[0x18, 0x18]), headed(0, 24, 2));
    assert_eq!(head(&[0x59, 0x01, 0x00]), headed(2, 256, 3));
    assert_eq!(head(&[0xBA, 0, 1, 0, 0]), headed(5, 65_536, 5));
    assert_eq!(head(&[0xDB, 0, 0, 0, 1, 0, 0, 0, 0]), headed(6, 1 << 32, 9));
    assert_eq!(head(&[0xF9, 0, 0]), headed(7, 0, 3));
    assert_eq!(head(&[0xF8, 0x20]), headed(7, 32, 2));
}

#[test]
fn heads_are_refused_in_order() {
    assert_eq!(head(&[]), refused(ENDED, 0));
    assert_eq!(head(&[0x1B, 0, 0]), refused(ENDED, 3));
    assert_eq!(head(&[0xF8]), refused(ENDED, 1));
    assert_eq!(head(&[0xF8, 0x1F]), refused(RESERVED, 0));
    assert_eq!(head(&[0x19, 0x00, 0xFF]), refused(LONG, 0));
    assert_eq!(head(&[0xD8, 0x17]), refused(LONG, 0));
    for major in 0..8 {
        for information in 28..=30 {
            assert_eq!(head(&[major << 5 | information]), refused(RESERVED, 0));
        }
        assert_eq!(head(&[major << 5 | 31]), refused(INDEFINITE, 0));
    }
}

#[test]
fn items_end_where_they_end() {
    assert_eq!(item(0, &[0x81, 0x00, 0x1C]), Ok(2));
    assert_eq!(item(0, &[0xA1, 0x61, 0x61, 0x82, 0x01, 0x02]), Ok(6));
    assert_eq!(item(0, &[0xC1, 0xFB, 0, 0, 0, 0, 0, 0, 0, 0]), Ok(10));
    assert_eq!(item(usize::MAX, &[0x42, 0, 0]), Ok(3));
    assert_eq!(item(0, &[0x42, 0]), refused(ENDED, 2));
    assert_eq!(item(0, &[0x82, 0x00]), refused(ENDED, 2));
}

#[test]
fn levels_are_counted() {
    assert_eq!(item(0, &nested(8, &[0x00])), Ok(9));
    assert_eq!(item(0, &nested(8, &[0x80])), refused(DEEP, 8));
    assert_eq!(item(0, &nested(7, &[0xC0, 0xC0])), refused(DEEP, 8));
    assert_eq!(item(8, &[0xA0]), refused(DEEP, 0));
    assert_eq!(item(7, &[0xA0]), Ok(1));
    assert_eq!(item(usize::MAX, &[0x80]), refused(DEEP, 0));
    assert_eq!(item(8, &[0x98, 0x00]), refused(LONG, 0));
    assert_eq!(item(8, &[0x98]), refused(ENDED, 1));
}

#[test]
fn claims_are_not_trusted() {
    let claim = |first: u8, argument: u64, rest: &[u8]| {
        [&[first], &argument.to_be_bytes()[..], rest].concat()
    };
    let most = u64::MAX;
    assert_eq!(item(0, &claim(0x9B, most, &[0x1C])), refused(RESERVED, 9));
    assert_eq!(item(0, &claim(0xBB, 1 << 63, &[])), refused(ENDED, 9));
    assert_eq!(
        item(0, &claim(0xBB, 1 << 63, &[0xFF])),
        refused(INDEFINITE, 9)
    );
    assert_eq!(item(0, &claim(0x5B, most, &[0xFF])), refused(ENDED, 10));
}

#[test]
fn put_heads_are_read_back() {
    for shift in 0..64 {
        for argument in [(1 << shift) - 1, 1 << shift, u64::MAX >> shift] {
            for major in 0..7 {
                let mut buffer = [0xEE; 12];
                let end = put_head(&mut buffer, 2, major, argument);
                assert_eq!(head(&buffer[2..end]), headed(major, argument, end - 2));
                assert!(buffer[..2]
                    .iter()
                    .chain(&buffer[end..])
                    .all(|&byte| byte == 0xEE));
            }
        }
    }
}

#[test]
fn put_heads_that_do_not_fit_change_nothing() {
    for (at, major, argument) in [
        (0, 7, 0),
        (0, 255, 0),
        (2, 0, 256),
        (4, 0, 0),
        (usize::MAX, 6, 0),
    ] {
        let mut buffer = [0xEE; 4];
        assert_eq!(put_head(&mut buffer, at, major, argument), 5);
        assert_eq!(buffer, [0xEE; 4]);
    }
    assert_eq!(put_head(&mut [], 0, 0, 0), 1);
    assert_eq!(put_head(&mut [0; 4], 1, 0, 256), 4);
}
