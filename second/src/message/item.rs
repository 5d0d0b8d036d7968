//! The message's bytes as a tree of items, each with its place.

use super::Span;
use crate::cbor::{head, item, Refusal};

/// An item and the bytes it takes.
pub struct Item {
    pub span: Span,
    sort: Sort,
}

/// What the shapes ask of an item; strings are said by where their content stands.
enum Sort {
    Unsigned(u64),
    Bytes(Span),
    Text(Span),
    Array(Vec<Item>),
    Null,
    Other,
}

impl Item {
    /// The item that starts at `at`. Maps and tags are not looked into: no shape has one.
    pub fn at(bytes: &[u8], at: usize) -> Result<Item, Refusal> {
        let rest = bytes.get(at..).unwrap_or_default();
        let head = head(rest)?;
        let length = item(0, rest)?;
        let content = Span {
            at: at + head.length,
            length: length - head.length,
        };
        let sort = match head.major {
            0 => Sort::Unsigned(head.argument),
            2 => Sort::Bytes(content),
            3 => Sort::Text(content),
            4 => Sort::Array(Item::several(content.at, head.argument, |at| {
                Item::at(bytes, at)
            })?),
            7 if rest[0] == 0xF6 => Sort::Null,
            _ => Sort::Other,
        };
        let span = Span { at, length };
        Ok(Item { span, sort })
    }

    /// So many items, one after the other, each as `read` gives it.
    fn several<F>(at: usize, count: u64, read: F) -> Result<Vec<Item>, Refusal>
    where
        F: Fn(usize) -> Result<Item, Refusal>,
    {
        let mut items = Vec::new();
        let mut start = at;
        for _ in 0..count {
            let item = read(start)?;
            start = item.span.end();
            items.push(item);
        }
        Ok(items)
    }

    /// The unsigned number that it is, if it lies within the type.
    pub fn unsigned<T: TryFrom<u64>>(&self) -> Option<T> {
        match self.sort {
            Sort::Unsigned(number) => T::try_from(number).ok(),
            _ => None,
        }
    }

    /// The content of the byte string that it is.
    pub fn bytes(&self) -> Option<Span> {
        match self.sort {
            Sort::Bytes(content) => Some(content),
            _ => None,
        }
    }

    /// The content of the text that it is.
    pub fn text(&self) -> Option<Span> {
        match self.sort {
            Sort::Text(content) => Some(content),
            _ => None,
        }
    }

    /// The items of the array that it is.
    pub fn array(&self) -> Option<&[Item]> {
        match &self.sort {
            Sort::Array(items) => Some(items),
            _ => None,
        }
    }

    pub fn is_null(&self) -> bool {
        matches!(self.sort, Sort::Null)
    }
}

impl Span {
    /// The offset after its last byte.
    pub fn end(&self) -> usize {
        self.at + self.length
    }

    /// Its bytes in the message.
    pub fn of<'a>(&self, message: &'a [u8]) -> &'a [u8] {
        &message[self.at..self.end()]
    }
}
