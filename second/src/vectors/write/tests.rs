//! Every stored description is written as its reading back demands.

use super::super::encode::shortest_head;
use super::super::message::parts::{array, null, number};
use super::super::message::term::Term;
use super::*;
use crate::block::layout::*;
use crate::writer::{describe, Description, NO_MESSAGE, SHORT_OUTPUT};

/// A span's bytes, if they lie in the source; no bytes lie anywhere.
fn content(source: &[u8], span: &[u64]) -> Option<Vec<u8>> {
    if span[1] == 0 {
        return Some(vec![]);
    }
    let end = u128::from(span[0]) + u128::from(span[1]);
    (end <= source.len() as u128).then(|| source[span[0] as usize..end as usize].to_vec())
}

/// A value's or item's bytes; none has no place.
fn given(source: &[u8], span: &[u64]) -> Option<Vec<u8>> {
    match span[1] {
        0 => Some(vec![]),
        _ => content(source, span),
    }
}

fn objective(source: &[u8], said: &[u64]) -> Option<Term> {
    let name = Term::Text(content(source, &said[NAME..])?);
    let value = given(source, &said[VALUE..])?;
    let mut items = vec![name, number(said[FLAGS]), number(said[COUNT])];
    if !value.is_empty() {
        items.push(Term::Raw(value));
    }
    Some(array(items))
}

fn locator(source: &[u8], said: &[u64]) -> Option<Term> {
    let place = content(source, &said[LOCATOR_SPAN..])?;
    let place = match said[LOCATOR_KIND] {
        103 | 104 => Term::Bytes(place),
        _ => Term::Text(place),
    };
    let or_null = |said, none| if said == none { null() } else { number(said) };
    let protocol = or_null(said[PROTOCOL], NULL_PROTOCOL);
    let port = or_null(said[PORT], NULL_PORT);
    Some(array([number(said[LOCATOR_KIND]), place, protocol, port]))
}

fn pair(source: &[u8], row: &[u64]) -> Option<Term> {
    let place = match row[PAIR_LOCATOR] {
        0 => array([]),
        _ => locator(source, &row[PAIR_LOCATOR..])?,
    };
    Some(array([objective(source, row)?, place]))
}

/// What follows the numbers and the initiator, whether right or not.
fn options(draft: &Draft) -> Option<Vec<Term>> {
    let (source, fields) = (&draft.source[..], &draft.fields);
    let width = draft.width().max(1);
    if !draft.list.len().is_multiple_of(width) {
        return None;
    }
    let rows = draft.list.chunks(width);
    let about =
        |has| (fields[HAS_OBJECTIVE] == has).then(|| objective(source, &fields[OBJECTIVE..]));
    match (fields[KIND], fields[LIST], fields[OUTCOME]) {
        (0 | 7, _, _) => Some(vec![]),
        (1 | 3 | 4 | 5 | 8, _, _) => Some(vec![about(1)??]),
        (2, LOCATORS | DIVERTED, _) => {
            let mut all: Vec<Term> = rows
                .map(|row| locator(source, row))
                .collect::<Option<_>>()?;
            if fields[LIST] == DIVERTED {
                all = vec![array([vec![number(100)], all].concat())];
            }
            if let Some(about) = about(1) {
                all.push(about?);
            }
            Some(all)
        }
        (9, PAIRS, _) => rows.map(|row| pair(source, row)).collect(),
        (6, _, ACCEPTED) => Some(vec![array([number(101)])]),
        (6, _, DECLINED) => Some(vec![array([number(102)])]),
        (6, _, DECLINED_WITH_REASON) => {
            let reason = Term::Text(content(source, &fields[ITEM..])?);
            Some(vec![array([number(102), reason])])
        }
        (99, _, _) => match given(source, &fields[ITEM..])? {
            item if item.is_empty() => Some(vec![]),
            item => Some(vec![Term::Raw(item)]),
        },
        _ => None,
    }
}

/// The encoding of what is said, with next to nothing judged.
fn loose(draft: &Draft) -> Option<Vec<u8>> {
    let fields = &draft.fields;
    let kind = fields[KIND];
    let mut items = vec![number(kind)];
    if kind > 0 {
        items.push(number(fields[SESSION]));
    }
    if matches!(kind, 1 | 2 | 9) {
        items.push(Term::Bytes(content(&draft.source, &fields[INITIATOR..])?));
    }
    if matches!(kind, 2 | 7 | 9) {
        items.push(number(fields[TTL]));
    }
    items.extend(options(draft)?);
    Some(array(items).encoded())
}

/// All numbers, with the length and content of each span that the message has for its place.
fn contents(draft: &Draft) -> Vec<(u64, Vec<u8>)> {
    let spans = draft.spans();
    let said = |slot: draft::Slot| match spans.contains(&slot) {
        true => {
            let span = [draft.get(slot), draft.get(slot.after(1))];
            (span[1], given(&draft.source, &span).unwrap_or_default())
        }
        false => (draft.get(slot), vec![]),
    };
    draft.slots().into_iter().map(said).collect()
}

/// A message's description as a draft.
fn read_back(message: Vec<u8>) -> Option<Draft> {
    let Description { fields, list } = describe(&message).ok()?;
    Some(Draft {
        source: message,
        list,
        fields,
        out_len: 0,
    })
}

/// The encoding that a draft must have: what reads back as the same description.
fn demanded(draft: &Draft) -> Result<Vec<u8>, u8> {
    let encoding = loose(draft).ok_or(NO_MESSAGE)?;
    let back = read_back(encoding.clone()).ok_or(NO_MESSAGE)?;
    if contents(&back) != contents(draft) {
        return Err(NO_MESSAGE);
    }
    if encoding.len() > draft.out_len {
        return Err(SHORT_OUTPUT);
    }
    Ok(encoding)
}

#[test]
fn descriptions_read_back() {
    let (mut written, mut refused, mut short) = (0, 0, 0);
    for (place, draft) in drafts().iter().enumerate() {
        let outcome = draft.outcome();
        assert_eq!(outcome, demanded(draft), "description {place}");
        match outcome {
            Ok(_) => written += 1,
            Err(NO_MESSAGE) => refused += 1,
            Err(_) => short += 1,
        }
    }
    assert!(written > 1_000 && refused > 1_000 && short > 100);
}

#[test]
fn generated_descriptions_read_back() {
    let mut random = crate::random::Random::new(0);
    for _ in 0..20_000 {
        for draft in [
            generated::good_draft(&mut random),
            generated::damaged_draft(&mut random),
        ] {
            assert_eq!(draft.outcome(), demanded(&draft));
        }
    }
}

#[test]
fn operations_are_stored_as_said() {
    let case = Case::Lower {
        message: vec![1, 2, 3],
        at: 1,
        end: 258,
        count: 9,
        out_len: 4,
    };
    assert_eq!(case.stored(), [2, 0, 3, 1, 2, 3, 0, 1, 1, 2, 9, 0, 4]);
    assert_eq!(case.line(), b"refused 18 aaaaaaaa\n");
    let case = Case::Rewrite {
        message: shortest_head(4, 1),
        out_len: 0,
    };
    assert_eq!(case.stored(), [4, 0, 1, 0x81, 0, 0]);
    assert_eq!(case.line(), b"refused 2 \n");
    let noop = Draft::of(b"\x81\x00").within(3);
    assert_eq!(noop.line(), b"length 2 8100aa\n");
    let stored = [&[1][..], &[0; 152], b"\0\0\0\x02\x81\0\0\x03"].concat();
    assert_eq!(noop.stored(), stored);
}
