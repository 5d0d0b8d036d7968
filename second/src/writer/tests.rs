use super::*;
use crate::block::layout::*;
use crate::vectors::message::cases;

const DISCOVERY: &[u8] = b"\x84\x01\x07\x44\xC0\x00\x02\x01\x83\x63EX1\x01\x02";
const FLOOD: &[u8] = b"\x85\x09\x07\x44\xC0\x00\x02\x01\x19\x03\xE8\x82\x83\x63EX1\x04\x02\x80";
const ANSWER: &[u8] = b"\x85\x02\x07\x44\xC0\x00\x02\x01\x19\xEA\x60\x84\x18\x67\x50\
    \x20\x01\x0D\xB8\x00\x00\x00\x00\x00\x00\x00\x00\x00\x00\x00\x01\x06\x19\x1B\x69";

/// The contents that the messages of rules 12 hold.
const SOURCE: &[u8] = b"\xC0\x00\x02\x01EX1\
    \x20\x01\x0D\xB8\x00\x00\x00\x00\x00\x00\x00\x00\x00\x00\x00\x01";

/// A block with these numbers in these fields.
fn block(numbers: &[(usize, u64)]) -> [u64; FIELDS] {
    let mut fields = [0; FIELDS];
    for &(field, number) in numbers {
        fields[field] = number;
    }
    fields
}

/// The Discovery, Flood and answer of rules 12.2, 12.6 and 12.5, each with its list.
fn examples() -> [([u64; FIELDS], Vec<u64>, &'static [u8]); 3] {
    let start = |kind| [(KIND, kind), (SESSION, 7), (INITIATOR + 1, 4)];
    let objective = [
        (HAS_OBJECTIVE, 1),
        (OBJECTIVE + NAME, 4),
        (OBJECTIVE + NAME + 1, 3),
        (OBJECTIVE + FLAGS, 1),
        (OBJECTIVE + COUNT, 2),
    ];
    let list = |ttl, list| [(TTL, ttl), (LIST, list), (LIST_MANY, 1)];
    [
        (
            block(&[&start(1)[..], &objective].concat()),
            vec![],
            DISCOVERY,
        ),
        (
            block(&[start(9), list(1_000, PAIRS)].concat()),
            vec![4, 3, 4, 2, 0, 0, 0, 0, 0, 0, 0, 0],
            FLOOD,
        ),
        (
            block(&[start(2), list(60_000, LOCATORS)].concat()),
            vec![103, 7, 16, 6, 7_017],
            ANSWER,
        ),
    ]
}

#[test]
fn examples_are_written() {
    for (fields, list, encoding) in examples() {
        let written = |out_len| write(SOURCE, &list, &fields, out_len);
        for out_len in [encoding.len(), 2_048, usize::MAX] {
            assert_eq!(written(out_len), Ok(encoding.to_vec()));
        }
        for out_len in [encoding.len() - 1, 0] {
            assert_eq!(written(out_len), Err(SHORT_OUTPUT));
        }
    }
    let small = |numbers: &[(usize, u64)]| write(&[], &[], &block(numbers), 6);
    assert_eq!(small(&[]), Ok(b"\x81\x00".to_vec()));
    let end = small(&[(KIND, 6), (SESSION, 7), (OUTCOME, 1)]);
    assert_eq!(end, Ok(b"\x83\x06\x07\x81\x18\x65".to_vec()));
    let wait = small(&[(KIND, 7), (SESSION, 7), (TTL, 1_000)]);
    assert_eq!(wait, Ok(b"\x83\x07\x07\x19\x03\xE8".to_vec()));
}

/// Changes of one number that leave the answer of rules 12.5 without a message.
#[test]
fn refusals_come_before_short_outputs() {
    let [_, _, (fields, list, encoding)] = examples();
    let refused = |source: &[u8], list: &[u64], fields: &[u64; FIELDS]| {
        for out_len in [0, encoding.len() - 1, encoding.len(), 2_048] {
            assert_eq!(write(source, list, fields, out_len), Err(NO_MESSAGE));
        }
    };
    // With 1 for HAS_OBJECTIVE there would be an objective with no name.
    let lacking = [HAS_OBJECTIVE, LIST_AT, OUTCOME, ITEM, ITEM + 1];
    for field in lacking.into_iter().chain(OBJECTIVE..LIST) {
        let mut other = fields;
        other[field] = 2;
        refused(SOURCE, &list, &other);
    }
    for number in 0..list.len() {
        let mut other = list.clone();
        other[number] += 1 << 40;
        refused(SOURCE, &other, &fields);
    }
    refused(&SOURCE[..SOURCE.len() - 1], &list, &fields);
    refused(SOURCE, &[], &fields);
    refused(SOURCE, &list[..4], &fields);
    refused(SOURCE, &list.repeat(2), &fields);
}

#[test]
fn counts_are_lowered() {
    let ending = |last: &[u8]| [&DISCOVERY[..14], last].concat();
    assert_eq!(lower(DISCOVERY, 14, 15, 2, 15), Ok(ending(b"\x01")));
    assert_eq!(lower(DISCOVERY, 14, 15, 2, 14), Err(SHORT_OUTPUT));
    assert_eq!(
        lower(&ending(b"\x18\x18"), 14, 16, 24, 15),
        Ok(ending(b"\x17"))
    );
    let flood = [&FLOOD[..18], b"\x01\x80"].concat();
    assert_eq!(lower(FLOOD, 18, 19, 2, 20), Ok(flood));
    for (at, end, count) in [(14, 15, 0), (15, 14, 2), (14, 16, 2), (16, 16, 2)] {
        assert_eq!(lower(DISCOVERY, at, end, count, 0), Err(NO_MESSAGE));
    }
    assert_eq!(
        lower(&[0; 2_048], 0, 1, 24, 2_048).map(|copy| copy.len()),
        Ok(2_048)
    );
    assert_eq!(lower(&[0; 2_048], 0, 1, 25, 0), Err(NO_MESSAGE));
    assert_eq!(
        lower(&[0; 2_047], 0, 1, 25, usize::MAX).map(|copy| copy.len()),
        Ok(2_048)
    );
}

#[test]
fn discoveries_are_answered() {
    let address: [u8; 16] = SOURCE[7..].try_into().expect("an address");
    let answered =
        |initiator: &[u8], out_len| answer(7, initiator, 60_000, &address, 7_017, out_len);
    assert_eq!(answered(&SOURCE[..4], 35), Ok(ANSWER.to_vec()));
    assert_eq!(answered(&SOURCE[..4], 34), Err(SHORT_OUTPUT));
    assert_eq!(answered(&[0; 16], 2_048).map(|answer| answer.len()), Ok(47));
    assert_eq!(answered(&[0; 5], 0), Err(NO_MESSAGE));
}

#[test]
fn what_is_read_is_written_again() {
    for case in cases() {
        match message::read(&case) {
            Ok(_) => {
                assert_eq!(rewrite(&case, case.len() - 1), Err(SHORT_OUTPUT));
                assert_eq!(rewrite(&case, case.len()), Ok(case));
            }
            Err(number) => assert_eq!(rewrite(&case, 0), Err(number)),
        }
    }
}
