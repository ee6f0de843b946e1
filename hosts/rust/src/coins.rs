//! The coins that make the heights of nodes.

/// Coins of 64 bits, by the generator SplitMix64. A map's coins are the same in every run; where
/// others choose the keys and may know that, give [`crate::Map::insert_with_coin`] random coins.
#[derive(Clone, Debug)]
pub struct Coins(u64);

impl Coins {
    pub fn new() -> Coins {
        Coins(0)
    }

    pub fn next(&mut self) -> u64 {
        self.0 = self.0.wrapping_add(0x9E37_79B9_7F4A_7C15);
        let mut mixed = self.0;
        mixed = (mixed ^ (mixed >> 30)).wrapping_mul(0xBF58_476D_1CE4_E5B9);
        mixed = (mixed ^ (mixed >> 27)).wrapping_mul(0x94D0_49BB_1331_11EB);
        mixed ^ (mixed >> 31)
    }
}
