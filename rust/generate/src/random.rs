//! A small generator of our own (SplitMix64): the same seed gives the same inputs on every machine.

pub struct Random(u64);

impl Random {
    /// The name keeps tests with one seed from walking the same numbers.
    pub fn new(seed: u64, name: &str) -> Self {
        // FNV-1a over the name
        let start = name.bytes().fold(seed ^ 0xcbf2_9ce4_8422_2325, |hash, byte| {
            (hash ^ u64::from(byte)).wrapping_mul(0x0000_0100_0000_01b3)
        });
        Random(start)
    }

    /// The generator of a test: `SEED` in the environment, or the usual seed; it is printed, so that a failure can be
    /// run again.
    pub fn of_test(name: &str) -> Self {
        let seed = from_env("SEED", 8866);
        println!("{name}: seed {seed}");
        Random::new(seed, name)
    }

    pub fn next(&mut self) -> u64 {
        self.0 = self.0.wrapping_add(0x9e37_79b9_7f4a_7c15);
        let mut z = self.0;
        z = (z ^ (z >> 30)).wrapping_mul(0xbf58_476d_1ce4_e5b9);
        z = (z ^ (z >> 27)).wrapping_mul(0x94d0_49bb_1331_11eb);
        z ^ (z >> 31)
    }

    /// A number below `bound`, which is not 0.
    pub fn below(&mut self, bound: usize) -> usize {
        (self.next() % bound as u64) as usize
    }

    /// A number from `low` to `high`, both possible.
    pub fn between(&mut self, low: usize, high: usize) -> usize {
        low + self.below(high - low + 1)
    }

    /// True once in `times`.
    pub fn once_in(&mut self, times: usize) -> bool {
        self.below(times) == 0
    }

    pub fn byte(&mut self) -> u8 {
        self.next() as u8
    }

    pub fn pick<'a, T: ?Sized>(&mut self, from: &[&'a T]) -> &'a T {
        from[self.below(from.len())]
    }

    pub fn letter(&mut self, of: &[u8]) -> u8 {
        of[self.below(of.len())]
    }
}

/// How many random inputs a test runs: `COUNT` in the environment, or the usual number. `SHARE` makes that fewer: with 10 it
/// is a tenth of them, but never below eight, or below the usual number where that is less.
pub fn count(usual: u64) -> u64 {
    from_env("COUNT", shared(usual, from_env("SHARE", 1)))
}

fn shared(usual: u64, share: u64) -> u64 {
    assert_ne!(share, 0, "SHARE is 0");
    (usual / share).max(usual.min(8))
}

#[test]
fn a_share_has_a_floor() {
    let tenth = |usual| shared(usual, 10);
    assert_eq!([40_000, 85, 80, 79, 8, 7, 1].map(tenth), [4_000, 8, 8, 8, 8, 7, 1]);
    assert_eq!((shared(60, 1), shared(60, 1_000_000)), (60, 8));
}

/// A value that is there and isn't a number is an error, never the usual number in silence.
pub fn from_env(name: &str, usual: u64) -> u64 {
    match std::env::var(name) {
        Ok(text) => text
            .parse()
            .unwrap_or_else(|_| panic!("{name} is not a number: {text}")),
        Err(std::env::VarError::NotPresent) => usual,
        Err(err) => panic!("{name}: {err}"),
    }
}
