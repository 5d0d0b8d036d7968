//! What the command line asks for.

pub const USAGE: &str =
    "usage: compare [--long] [--count N] [--histories N] [--talks N] [--writes N] [--seed N]";

/// How many times as much a long run compares.
const LONG: usize = 100;

/// How many messages, node histories, lists of negotiation steps and descriptions are compared,
/// the stored ones first, and the seed of the generated ones.
#[derive(Debug, PartialEq, Eq)]
pub struct Options {
    pub count: usize,
    pub histories: usize,
    pub talks: usize,
    pub writes: usize,
    pub seed: u64,
}

impl Default for Options {
    fn default() -> Options {
        Options {
            count: 100_000,
            histories: 2_000,
            talks: 4_000,
            writes: 50_000,
            seed: 1,
        }
    }
}

impl Options {
    /// The options that the words say, if they are good.
    pub fn of(words: &[String]) -> Option<Options> {
        let (is_long, words) = match words.split_first() {
            Some((first, others)) if first == "--long" => (true, others),
            _ => (false, words),
        };
        let mut options = if is_long {
            Options::default().long()
        } else {
            Options::default()
        };
        for pair in words.chunks(2) {
            let [name, number] = pair else {
                return None;
            };
            match name.as_str() {
                "--count" => options.count = number.parse().ok()?,
                "--histories" => options.histories = number.parse().ok()?,
                "--talks" => options.talks = number.parse().ok()?,
                "--writes" => options.writes = number.parse().ok()?,
                "--seed" => options.seed = number.parse().ok()?,
                _ => return None,
            }
        }
        Some(options)
    }

    /// The same for a long run.
    fn long(self) -> Options {
        Options {
            count: LONG * self.count,
            histories: LONG * self.histories,
            talks: LONG * self.talks,
            writes: LONG * self.writes,
            seed: self.seed,
        }
    }
}

#[cfg(test)]
mod tests {
    use super::*;

    fn options(words: &[&str]) -> Option<Options> {
        let words: Vec<String> = words.iter().map(|word| word.to_string()).collect();
        Options::of(&words)
    }

    #[test]
    fn words_are_read() {
        assert_eq!(options(&[]), Some(Options::default()));
        let five = options(&["--seed", "5", "--histories", "6"]);
        assert_eq!(five.map(|five| (five.seed, five.histories)), Some((5, 6)));
        let long = options(&["--long", "--talks", "3"]);
        let long = long.map(|long| (long.count, long.talks, long.seed));
        assert_eq!(long, Some((10_000_000, 3, 1)));
        for bad in [&["--seed"][..], &["--seed", "x"], &["--other", "1"]] {
            assert_eq!(options(bad), None);
        }
    }
}
