//! Streams made at random, each kind after another sort of trouble. A stream is a list of pieces, mostly one message
//! each, so that a failing one can be shortened piece by piece.

mod deep;
mod hostile;
mod maker;
mod mixed;
mod ordinary;
mod tiny;

use crate::random::Random;
pub use maker::Maker;

pub type Stream = Vec<Vec<u8>>;

#[derive(Clone, Copy, PartialEq, Eq, Debug)]
pub enum Kind {
    /// Ordinary work of all sorts with some of it wrong.
    Mixed,
    /// Tables kept full, rings of arrows up to the longest there can be, long chains to sweep.
    Deep,
    /// Bytes malformed in every way, messages before the opening, second openings.
    Hostile,
    /// Few sites, few transactions, few tickets: short runs that cover small cases densely.
    Tiny,
    /// Transactions one after the other that all commit; for measuring, not for finding faults.
    Ordinary,
}

impl Kind {
    pub const TESTED: [Kind; 4] = [Kind::Tiny, Kind::Mixed, Kind::Deep, Kind::Hostile];

    pub fn name(self) -> &'static str {
        match self {
            Kind::Mixed => "mixed",
            Kind::Deep => "deep",
            Kind::Hostile => "hostile",
            Kind::Tiny => "tiny",
            Kind::Ordinary => "ordinary",
        }
    }

    pub fn named(name: &str) -> Option<Kind> {
        let all = [Kind::Mixed, Kind::Deep, Kind::Hostile, Kind::Tiny, Kind::Ordinary];
        all.into_iter().find(|kind| kind.name() == name)
    }

    /// How many messages a stream of this kind has, about.
    fn length(self, random: &mut Random) -> usize {
        match self {
            Kind::Mixed => 40 + random.below(460),
            Kind::Deep => 400 + random.below(800),
            Kind::Hostile => 4 + random.below(110),
            Kind::Tiny => 1 + random.below(24),
            Kind::Ordinary => 700,
        }
    }
}

/// The stream with this index of a run with this seed.
pub fn stream(kind: Kind, seed: u64, index: u64) -> Stream {
    let mut random = Random::new(seed, kind as u64, index);
    let length = kind.length(&mut random);
    let mut maker = Maker::new(random);
    fill(kind, &mut maker, length);
    maker.out
}

/// Messages up to about this length into a maker, whose output may be taken away meanwhile.
pub fn fill(kind: Kind, maker: &mut Maker, length: usize) {
    match kind {
        Kind::Mixed => mixed::fill(maker, length),
        Kind::Deep => deep::fill(maker, length),
        Kind::Hostile => hostile::fill(maker, length),
        Kind::Tiny => tiny::fill(maker, length),
        Kind::Ordinary => ordinary::fill(maker, length),
    }
}
