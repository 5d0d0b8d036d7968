//! Responses that answer a Discovery.

use super::{Case, Outcome};
use crate::random::Random;
use crate::writer::answer;

/// An answer's arguments but the output's length.
#[derive(Clone)]
pub struct Asked {
    session: u32,
    initiator: Vec<u8>,
    ttl: u32,
    address: [u8; 16],
    port: u16,
}

/// The answer of rules 12.5.
fn example() -> Asked {
    let mut address = [0; 16];
    address[..4].copy_from_slice(&[0x20, 0x01, 0x0D, 0xB8]);
    address[15] = 1;
    Asked {
        session: 7,
        initiator: vec![192, 0, 2, 1],
        ttl: 60_000,
        address,
        port: 7_017,
    }
}

impl Asked {
    fn within(&self, out_len: usize) -> Case {
        let asked = self.clone();
        Case::Answer { asked, out_len }
    }

    /// The arguments, with the initiator's length in a byte.
    pub(super) fn stored(&self) -> Vec<u8> {
        let length = u8::try_from(self.initiator.len()).expect("at most 255 bytes");
        let before = [&self.session.to_be_bytes()[..], &[length], &self.initiator];
        let after = [
            &self.ttl.to_be_bytes()[..],
            &self.address,
            &self.port.to_be_bytes(),
        ];
        [before.concat(), after.concat()].concat()
    }

    /// What must come of it.
    pub(super) fn outcome(&self, out_len: usize) -> Outcome {
        let (session, initiator) = (self.session, &self.initiator);
        answer(
            session,
            initiator,
            self.ttl,
            &self.address,
            self.port,
            out_len,
        )
    }

    /// The answer's length, from the widths of its heads.
    fn length(&self) -> usize {
        let width = |number: u64| match number {
            0..=23 => 1,
            24..=0xFF => 2,
            0x100..=0xFFFF => 3,
            _ => 5,
        };
        let said = [u64::from(self.session), self.ttl.into(), self.port.into()];
        let string = width(self.initiator.len() as u64) + self.initiator.len();
        said.map(width).iter().sum::<usize>() + string + 23
    }

    /// One byte short, just fitting and longer.
    fn around(&self) -> [Case; 3] {
        let length = self.length();
        [length - 1, length, length + 2].map(|out_len| self.within(out_len))
    }
}

/// The 35 bytes of rules 12.5 with every shorter output, and with longer ones.
pub fn bytes_at_the_edges() -> Vec<Case> {
    let lengths = (0..=37).chain([255, 256, 2_048, 2_100]);
    lengths.map(|out_len| example().within(out_len)).collect()
}

/// Sessions, ttls and ports at every head width.
pub fn numbers() -> Vec<Case> {
    let edges = [0, 23, 24, 255, 256, 65_535, 65_536, u32::MAX];
    let mut cases = Vec::new();
    for edge in edges {
        for initiator in [vec![0; 4], vec![0xFF; 16]] {
            let start = Asked {
                initiator,
                ..example()
            };
            let (mut first, mut second, mut third) = (start.clone(), start.clone(), start);
            first.session = edge;
            second.ttl = edge;
            third.port = edge as u16;
            cases.extend([first, second, third].iter().flat_map(Asked::around));
        }
    }
    cases
}

/// Initiators of 4 and 16 bytes, and of other lengths, which no message has.
pub fn initiators() -> Vec<Case> {
    let mut cases = Vec::new();
    for length in [0, 1, 3, 4, 5, 15, 16, 17, 23, 24, 32, 255] {
        let initiator = (0..length).collect();
        let asked = Asked {
            initiator,
            ..example()
        };
        cases.extend(asked.around());
    }
    cases
}

/// Random answers.
pub fn random_answers() -> Vec<Case> {
    let mut random = Random::new(25);
    let mut cases = Vec::new();
    for _ in 0..100 {
        let length = *random.pick(&[4, 16]);
        let mut address = [0; 16];
        address.copy_from_slice(&random.bytes(16));
        let asked = Asked {
            session: random.number() as u32,
            initiator: random.bytes(length),
            ttl: random.number() as u32,
            address,
            port: random.number() as u16,
        };
        let out_len = asked.length() + random.below(3) - random.below(2);
        cases.push(asked.within(out_len));
    }
    cases
}
