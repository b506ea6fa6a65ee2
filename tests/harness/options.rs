//! The words of a comparison's command line.

use std::ops::Range;

pub struct Options {
    pub seed: u64,
    pub only: Option<u64>,
    pub replay: Option<String>,
    pub faults: bool,
    /// What follows the comparison's own word.
    pub own: Option<String>,
    count: u64,
}

impl Options {
    /// The words that this program was started with; `counted` is the word that says how many are compared, and `own` one
    /// that only this comparison has. Nothing where there is another word.
    pub fn given(counted: &str, count: u64, own: Option<&str>) -> Option<Options> {
        let mut options = Options {
            seed: 1,
            only: None,
            replay: None,
            faults: false,
            own: None,
            count,
        };
        let mut words = std::env::args().skip(1);
        while let Some(word) = words.next() {
            match word.as_str() {
                "--seed" => options.seed = words.next()?.parse().ok()?,
                "--only" => options.only = Some(words.next()?.parse().ok()?),
                "--replay" => options.replay = Some(words.next()?),
                "--break" => options.faults = true,
                word if word == counted => options.count = words.next()?.parse().ok()?,
                word if Some(word) == own => options.own = Some(words.next()?),
                _ => return None,
            }
        }
        Some(options)
    }

    /// The numbers of what is compared.
    pub fn numbers(&self) -> Range<u64> {
        match self.only {
            Some(only) => only..only + 1,
            None => 0..self.count,
        }
    }
}
