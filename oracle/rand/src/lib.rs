//! A stand-in for `rand`. Nothing here is random: a [`Script`] hands out the numbers of one draw, so that a draw
//! names the kind of the move and each of its choices.

use std::ops::Range;

/// What moves.rs asks of a source.
pub trait RngExt {
    /// A number of the range.
    fn random_range(&mut self, range: Range<usize>) -> usize;

    /// Yes or no.
    fn random_bool(&mut self, chance: f64) -> bool;

    /// A number below the sum of all weights: it picks the kind of a move.
    fn random_weight(&mut self, total: u32) -> u32;
}

/// The numbers of one draw: the weight that picks the kind, then the choices in the order in which they are asked for.
#[derive(Debug, Clone)]
pub struct Script {
    draw: u32,
    choices: [usize; 2],
    asked: usize,
    outside: bool,
}

impl Script {
    /// A draw with its choices.
    #[inline]
    pub fn new(draw: u32, choices: [usize; 2]) -> Self {
        Self {
            draw,
            choices,
            asked: 0,
            outside: false,
        }
    }

    /// Whether some choice was not in the range that it was asked for.
    #[inline]
    pub fn outside(&self) -> bool {
        self.outside
    }

    #[inline]
    fn next(&mut self) -> usize {
        let choice = self.choices.get(self.asked).copied();
        self.asked += 1;
        choice.expect("the script has a number for each choice")
    }
}

impl RngExt for Script {
    #[inline]
    fn random_range(&mut self, range: Range<usize>) -> usize {
        assert!(range.start < range.end, "an empty range has no number");
        let choice = self.next();
        if choice < range.end - range.start {
            range.start + choice
        } else {
            // The caller goes on with some number of the range; whoever scripted the draw asks `outside` and drops what comes of it.
            self.outside = true;
            range.start
        }
    }

    #[inline]
    fn random_bool(&mut self, _chance: f64) -> bool {
        let choice = self.next();
        if choice > 1 {
            self.outside = true;
        }
        choice == 1
    }

    #[inline]
    fn random_weight(&mut self, total: u32) -> u32 {
        assert!(self.draw < total, "a draw is below the sum of the weights");
        self.draw
    }
}

pub mod distr {
    use super::RngExt;

    /// What a value is taken from.
    pub trait Distribution<T> {
        /// A value, by the source's choice.
        fn sample<R: RngExt + ?Sized>(&self, rng: &mut R) -> T;
    }

    pub mod weighted {
        use super::{Distribution, RngExt};

        /// Indexes, each with its weight: a number below the sum picks the index in whose stretch it lies.
        #[derive(Debug, Clone)]
        pub struct WeightedIndex<T> {
            weights: Vec<T>,
        }

        impl WeightedIndex<u32> {
            /// The indexes of `weights`.
            pub fn new<I: IntoIterator<Item = u32>>(weights: I) -> Result<Self, String> {
                let weights: Vec<u32> = weights.into_iter().collect();
                if weights.iter().all(|&weight| weight == 0) {
                    return Err("no weight is above 0".to_string());
                }
                Ok(Self { weights })
            }
        }

        impl Distribution<usize> for WeightedIndex<u32> {
            fn sample<R: RngExt + ?Sized>(&self, rng: &mut R) -> usize {
                let mut left = rng.random_weight(self.weights.iter().sum());
                for (index, &weight) in self.weights.iter().enumerate() {
                    if left < weight {
                        return index;
                    }
                    left -= weight;
                }
                unreachable!("the number is below the sum of the weights")
            }
        }
    }
}
