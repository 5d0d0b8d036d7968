//! The line that each case gives.

use crate::message::{self, Locator, Message, Objective, Outcome, Pair, Span, Target};

/// The line that the program must print, with its line feed.
pub fn line(case: &[u8]) -> Vec<u8> {
    let line = match message::read(case) {
        Ok(message) => format!("kind {}{}", message.kind(), said(&message)),
        Err(number) => format!("refused {number}"),
    };
    format!("{line}\n").into_bytes()
}

/// All that was read after the kind, in the message's order.
fn said(message: &Message) -> String {
    match message {
        Message::Noop => String::new(),
        Message::Discovery {
            session,
            initiator,
            objective,
        } => format!("{}{}", sent(*session, initiator), about(objective)),
        Message::Response {
            session,
            initiator,
            ttl,
            target,
            objective,
        } => {
            let objective: String = objective.iter().map(about).collect();
            let sent = sent(*session, initiator);
            format!("{sent} ttl {ttl}{}{objective}", pointed(target))
        }
        Message::RequestNegotiation { session, objective }
        | Message::RequestSynchronization { session, objective }
        | Message::Negotiate { session, objective }
        | Message::Synch { session, objective } => {
            format!(" session {session}{}", about(objective))
        }
        Message::End { session, outcome } => format!(" session {session}{}", ended(outcome)),
        Message::Wait { session, time } => format!(" session {session} wait {time}"),
        Message::Flood {
            session,
            initiator,
            ttl,
            pairs,
        } => format!("{} ttl {ttl}{}", sent(*session, initiator), flooded(pairs)),
        Message::Invalid { session, item } => {
            let item: String = item.iter().map(|item| named("item", item)).collect();
            format!(" session {session}{item}")
        }
    }
}

/// A word and where what it names stands.
fn named(word: &str, span: &Span) -> String {
    format!(" {word} {} {}", span.at, span.length)
}

fn sent(session: u32, initiator: &Span) -> String {
    format!(" session {session}{}", named("initiator", initiator))
}

fn about(objective: &Objective) -> String {
    let Objective {
        name,
        flags,
        count,
        count_head,
        value,
    } = objective;
    let value = value.unwrap_or(Span {
        at: count_head.at + count_head.length,
        length: 0,
    });
    format!(
        "{} {flags} {count} {} {} {} {}",
        named("objective", name),
        count_head.at,
        count_head.length,
        value.at,
        value.length
    )
}

fn pointed(target: &Target) -> String {
    let (word, locators) = match target {
        Target::Locators(locators) => ("locators", locators),
        Target::Divert(locators) => ("divert", locators),
    };
    let each: String = locators.iter().map(located).collect();
    format!(" {word} {}{each}", locators.len())
}

fn located(locator: &Locator) -> String {
    match locator {
        Locator::V6 { at, protocol, port } => format!(" v6 {at} {protocol} {port}"),
        Locator::V4 { at, protocol, port } => format!(" v4 {at} {protocol} {port}"),
        Locator::Domain {
            text,
            protocol,
            port,
        } => format!("{} {protocol} {port}", named("domain", text)),
        Locator::Uri {
            text,
            protocol,
            port,
        } => format!(
            "{} {} {}",
            named("uri", text),
            or_null(*protocol),
            or_null(*port)
        ),
    }
}

fn or_null<T: ToString>(number: Option<T>) -> String {
    number.map_or(String::from("null"), |number| number.to_string())
}

fn flooded(pairs: &[Pair]) -> String {
    let each: String = pairs
        .iter()
        .map(|pair| {
            let locator = pair.locator.as_ref();
            about(&pair.objective) + &locator.map_or(String::from(" nowhere"), located)
        })
        .collect();
    format!(" pairs {}{each}", pairs.len())
}

fn ended(outcome: &Outcome) -> String {
    match outcome {
        Outcome::Accept => String::from(" accept"),
        Outcome::Decline(None) => String::from(" decline"),
        Outcome::Decline(Some(reason)) => named("decline", reason),
    }
}
