//! Items as they are put together for a case, with every place in them open to change.

use super::super::encode::{head_forms, shortest_head};

#[derive(Clone)]
pub enum Term {
    Number(u64),
    Bytes(Vec<u8>),
    Text(Vec<u8>),
    Array(Vec<Term>),
    /// Bytes as they are: any other item, or a fault.
    Raw(Vec<u8>),
}

/// The way from an item to one inside it, by positions in arrays.
pub type Path = Vec<usize>;

impl Term {
    /// The item's bytes, with the shortest heads.
    pub fn encoded(&self) -> Vec<u8> {
        match self.head() {
            Some((major, argument)) => [shortest_head(major, argument), self.content()].concat(),
            None => self.content(),
        }
    }

    /// The item's bytes with each longer head of its own.
    pub fn long_forms(&self) -> Vec<Vec<u8>> {
        let Some((major, argument)) = self.head() else {
            return vec![];
        };
        head_forms(major, argument)
            .into_iter()
            .skip(1)
            .map(|head| [head, self.content()].concat())
            .collect()
    }

    fn head(&self) -> Option<(u8, u64)> {
        match self {
            Term::Number(number) => Some((0, *number)),
            Term::Bytes(content) => Some((2, content.len() as u64)),
            Term::Text(content) => Some((3, content.len() as u64)),
            Term::Array(items) => Some((4, items.len() as u64)),
            Term::Raw(_) => None,
        }
    }

    /// The bytes after the head.
    pub fn content(&self) -> Vec<u8> {
        match self {
            Term::Number(_) => vec![],
            Term::Bytes(content) | Term::Text(content) | Term::Raw(content) => content.clone(),
            Term::Array(items) => items.iter().flat_map(Term::encoded).collect(),
        }
    }

    /// The items of the array that it is, else none.
    pub fn items(&self) -> &[Term] {
        match self {
            Term::Array(items) => items,
            _ => &[],
        }
    }

    /// The ways to all items, itself first.
    pub fn places(&self) -> Vec<Path> {
        let mut places = vec![vec![]];
        for (position, item) in self.items().iter().enumerate() {
            for below in item.places() {
                places.push([vec![position], below].concat());
            }
        }
        places
    }

    /// The item at the end of the way.
    pub fn at(&self, path: &[usize]) -> &Term {
        path.iter()
            .fold(self, |term, &position| &term.items()[position])
    }

    /// The same with another item at the end of the way.
    pub fn with(&self, path: &[usize], other: Term) -> Term {
        let Some((&position, below)) = path.split_first() else {
            return other;
        };
        let mut items = self.items().to_vec();
        items[position] = items[position].with(below, other);
        Term::Array(items)
    }
}

/// The bytes of each.
pub fn encoded(terms: impl IntoIterator<Item = Term>) -> Vec<Vec<u8>> {
    terms.into_iter().map(|term| term.encoded()).collect()
}
