//! Seeded schedule files of many kinds, valid and damaged.

mod author;
pub mod damage;
pub mod scripts;
pub mod styles;

use std::fs;
use std::io::{self, Write};
use std::path::Path;

use crate::random::Random;
use crate::reader::Cause;
use damage::{damage, damage_far_out};
use styles::{begin, draw_file, go_on};

/// One kind of file. The same seed gives the same file.
pub struct Kind {
    pub name: &'static str,
    /// Whether every file of this kind is read to its end.
    pub valid: bool,
    pub file: fn(u64) -> Vec<u8>,
}

const fn valid(name: &'static str, file: fn(u64) -> Vec<u8>) -> Kind {
    Kind { name, valid: true, file }
}

const fn damaged(name: &'static str, file: fn(u64) -> Vec<u8>) -> Kind {
    Kind { name, valid: false, file }
}

/// The kinds of small files, which a corpus goes through in turn.
pub const SMALL_KINDS: [Kind; 26] = [
    valid("mixed", |seed| draw_file(&styles::MIXED, seed)),
    valid("colliding", |seed| draw_file(&styles::COLLIDING, seed)),
    valid("readded", |seed| draw_file(&styles::READDED, seed)),
    valid("reused", |seed| draw_file(&styles::REUSED, seed)),
    valid("full", |seed| draw_file(&styles::FULL, seed)),
    valid("many-ranges", |seed| draw_file(&styles::MANY_RANGES, seed)),
    valid("extreme", |seed| draw_file(&styles::EXTREME, seed)),
    valid("scattered", |seed| draw_file(&styles::SCATTERED, seed)),
    valid("last-versions", |seed| draw_file(&styles::LAST_VERSIONS, seed)),
    valid("wrong", |seed| draw_file(&styles::WRONG, seed)),
    valid("almost-empty", |seed| draw_file(&styles::ALMOST_EMPTY, seed)),
    valid("close-orders", scripts::closes_in_every_order),
    valid("refusals", scripts::every_refusal),
    valid("sixty-four", scripts::around_sixty_four_pairs),
    valid("refused-set-up", scripts::refused_set_up),
    damaged("cut-before", |seed| damage(Cause::CutBeforeFirstByte, seed).bytes),
    damaged("cut-inside", |seed| damage(Cause::CutInTheMiddle, seed).bytes),
    damaged("not-shortest", |seed| damage(Cause::NotShortest, seed).bytes),
    damaged("eleven-bytes", |seed| damage(Cause::MoreThanTenBytes, seed).bytes),
    damaged("past-64-bits", |seed| damage(Cause::PastSixtyFourBits, seed).bytes),
    damaged("past-32-bits", |seed| damage(Cause::PastThirtyTwoBits, seed).bytes),
    damaged("unknown-code", |seed| damage(Cause::UnknownCode, seed).bytes),
    damaged("cut-in-order", damage::cut_in_order),
    damaged("cut-anywhere", damage::cut_anywhere),
    damaged("byte-changed", damage::byte_changed),
    damaged("random-bytes", damage::random_bytes),
];

/// The kinds of which a corpus needs only a few files.
pub const RARE_KINDS: [Kind; 3] = [
    valid("buffers", |seed| draw_file(&styles::BUFFERS, seed)),
    damaged("buffers-damaged", |seed| damage_far_out(seed).bytes),
    damaged("empty", |_| Vec::new()),
];

pub fn kinds() -> impl Iterator<Item = &'static Kind> {
    SMALL_KINDS.iter().chain(&RARE_KINDS)
}

/// The kind and the seed of each file of a corpus: first the rare kinds, then the small ones in
/// turn. Corpora of different seeds share no file seed.
pub fn corpus(count: usize, seed: u64) -> impl Iterator<Item = (&'static Kind, u64)> {
    let first_seed = seed.wrapping_mul(1_000_000);
    let rounds_of_rare = 1 + count / 1000;
    let in_turn = |kinds: &'static [Kind]| {
        (0..).flat_map(move |round| {
            kinds.iter().map(move |kind| (kind, first_seed.wrapping_add(round)))
        })
    };
    let rare = in_turn(&RARE_KINDS).take(rounds_of_rare * RARE_KINDS.len());
    rare.chain(in_turn(&SMALL_KINDS)).take(count)
}

/// Writes a corpus to a folder. A file's name is its number, its kind and its seed.
pub fn write_corpus(folder: &Path, count: usize, seed: u64) -> io::Result<()> {
    fs::create_dir_all(folder)?;
    for (number, (kind, file_seed)) in corpus(count, seed).enumerate() {
        let name = format!("{number:05}-{}-{file_seed}", kind.name);
        fs::write(folder.join(name), (kind.file)(file_seed))?;
    }
    Ok(())
}

/// Writes a valid file of so many transactions, without holding it in memory.
pub fn write_long(seed: u64, transactions: u64, mut output: impl Write) -> io::Result<()> {
    const AT_ONCE: u64 = 1000;
    let mut author = begin(&styles::LONG, Random::new(seed));
    let mut left = transactions;
    while left > 0 {
        let now = left.min(AT_ONCE);
        go_on(&mut author, &styles::LONG, now);
        output.write_all(&author.bytes)?;
        author.bytes.clear();
        left -= now;
    }
    output.flush()
}
