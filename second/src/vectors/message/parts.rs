//! Messages and options to build cases from.

use super::super::unhex;
use super::term::Term;

/// What holds an item to make a message of it.
pub type Holder = fn(Term) -> Term;

pub fn number(number: u64) -> Term {
    Term::Number(number)
}

/// A byte string of this length.
pub fn bytes(length: usize) -> Term {
    Term::Bytes((0..length).map(|place| 0xC0 + place as u8 % 64).collect())
}

pub fn text(content: impl AsRef<[u8]>) -> Term {
    Term::Text(content.as_ref().to_vec())
}

pub fn array(items: impl Into<Vec<Term>>) -> Term {
    Term::Array(items.into())
}

pub fn raw(digits: &str) -> Term {
    Term::Raw(unhex(digits))
}

pub fn null() -> Term {
    raw("F6")
}

/// The objective of rules 12.2, without and with a value, and with another name.
pub fn ex1() -> Term {
    named("EX1")
}

pub fn valued(value: Term) -> Term {
    array([text("EX1"), number(1), number(2), value])
}

pub fn named(name: impl AsRef<[u8]>) -> Term {
    array([text(name), number(1), number(2)])
}

pub fn v6() -> Term {
    array([number(103), bytes(16), number(6), number(7017)])
}

pub fn v4() -> Term {
    array([number(104), bytes(4), number(17), number(80)])
}

pub fn domain(name: impl AsRef<[u8]>) -> Term {
    array([number(105), text(name), number(6), number(443)])
}

pub fn uri(uri: impl AsRef<[u8]>) -> Term {
    array([number(106), text(uri), number(17), number(5683)])
}

pub fn bare_uri(uri: impl AsRef<[u8]>) -> Term {
    array([number(106), text(uri), null(), null()])
}

/// One locator of each kind, and a URI without protocol and port.
pub fn locators() -> [Term; 5] {
    [
        v6(),
        v4(),
        domain("a.example"),
        uri("coap://a"),
        bare_uri("a:b"),
    ]
}

pub fn divert(locators: impl Into<Vec<Term>>) -> Term {
    array([vec![number(100)], locators.into()].concat())
}

pub fn accept() -> Term {
    array([number(101)])
}

pub fn decline() -> Term {
    array([number(102)])
}

pub fn declined(reason: impl AsRef<[u8]>) -> Term {
    array([number(102), text(reason)])
}

pub fn pair(objective: Term, locator: Term) -> Term {
    array([objective, locator])
}

pub fn nowhere() -> Term {
    array([])
}

/// A Discovery; in it and below, session 7 and an initiator of 4 bytes as in rules 12.2.
pub fn discovery(objective: Term) -> Term {
    array([number(1), number(7), bytes(4), objective])
}

pub fn response(options: impl Into<Vec<Term>>) -> Term {
    let start = vec![number(2), number(7), bytes(4), number(60_000)];
    array([start, options.into()].concat())
}

pub fn flood(pairs: impl Into<Vec<Term>>) -> Term {
    let start = vec![number(9), number(7), bytes(4), number(1_000)];
    array([start, pairs.into()].concat())
}

/// A message of kind 3, 4, 5 or 8.
pub fn talk(kind: u64, objective: Term) -> Term {
    array([number(kind), number(7), objective])
}

pub fn end(option: Term) -> Term {
    array([number(6), number(7), option])
}

pub fn wait(time: u64) -> Term {
    array([number(7), number(7), number(time)])
}

pub fn invalid(items: impl Into<Vec<Term>>) -> Term {
    array([vec![number(99), number(7)], items.into()].concat())
}

/// Every place where an objective may stand.
pub const AROUND_OBJECTIVE: &[Holder] = &[
    discovery,
    |objective| response([v4(), objective]),
    |objective| response([v4(), domain("a"), objective]),
    |objective| response([divert([v4()]), objective]),
    |objective| talk(3, objective),
    |objective| talk(4, objective),
    |objective| talk(5, objective),
    |objective| talk(8, objective),
    |objective| flood([pair(objective, nowhere())]),
    |objective| flood([pair(objective, v4()), pair(ex1(), nowhere())]),
    |objective| flood([pair(ex1(), nowhere()), pair(objective, v4())]),
    |objective| {
        let (first, last) = (pair(ex1(), v4()), pair(ex1(), nowhere()));
        flood([first, pair(objective, nowhere()), last])
    },
];

/// Every place where a locator may stand.
pub const AROUND_LOCATOR: &[Holder] = &[
    |locator| response([locator]),
    |locator| response([locator, v4()]),
    |locator| response([v4(), locator]),
    |locator| response([v4(), locator, ex1()]),
    |locator| response([divert([locator])]),
    |locator| response([divert([locator, v4()]), ex1()]),
    |locator| response([divert([v4(), locator])]),
    |locator| flood([pair(ex1(), locator)]),
    |locator| flood([pair(ex1(), locator), pair(ex1(), nowhere())]),
    |locator| flood([pair(ex1(), nowhere()), pair(ex1(), locator)]),
];

/// The value of any sort in every place where one may stand.
pub fn with_value(value: &Term) -> Vec<Term> {
    let mut messages = vec![invalid([value.clone()])];
    for holder in AROUND_OBJECTIVE {
        messages.push(holder(valued(value.clone())));
    }
    messages
}

/// The text in every place of a named text (rules 2.8).
pub fn with_text(text: &[u8]) -> Vec<Term> {
    let mut messages = vec![end(declined(text))];
    for holder in AROUND_OBJECTIVE {
        messages.push(holder(named(text)));
    }
    for holder in AROUND_LOCATOR {
        messages.extend([domain(text), uri(text)].map(holder));
    }
    messages
}

/// Messages of every kind with every option.
pub fn samples() -> Vec<Term> {
    let value = || array([text("NZD"), number(47)]);
    let long = array([number(1), number(7), bytes(16), valued(number(0))]);
    vec![
        array([number(0)]),
        discovery(ex1()),
        long,
        response([v6()]),
        response([v4(), domain("a.example")]),
        response([uri("coap://a"), bare_uri("a:b"), ex1()]),
        response([divert([v4()])]),
        response([divert([domain("b"), uri("c:d")]), valued(value())]),
        talk(3, valued(value())),
        talk(4, ex1()),
        talk(5, valued(text("EX3"))),
        talk(8, valued(null())),
        end(accept()),
        end(decline()),
        end(declined("Insufficient funds")),
        wait(34_965),
        flood([pair(ex1(), nowhere())]),
        flood([pair(valued(value()), v6())]),
        flood([pair(ex1(), bare_uri("a:b")), pair(ex1(), domain("a"))]),
        invalid([]),
        invalid([number(24)]),
        invalid([array([number(200), number(7)])]),
    ]
}
