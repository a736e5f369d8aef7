//! Drawn operation logs and job scripts, of one kind or of all.

use crate::damage::{Damaged, damaged};
use crate::draft::{Draft, Drawn, Kind};
use crate::random::Random;
use crate::records::{HEAD, MOST};
use std::fs;
use std::path::Path;

/// Bytes of this kind, the same for the same seed.
pub fn generate<D: Damaged>(seed: u64, name: &str) -> Result<Vec<u8>, String> {
    let mut random = Random::new(seed);
    let first = &D::KINDS[0];
    Ok(match name {
        "damaged" => {
            let kind = &D::KINDS[random.below(D::KINDS.len() as u64) as usize];
            let records = random.below(24) as usize;
            damaged(drawn::<D>(random, kind, records))
        }
        "full" => exactly_most::<D>(random, first),
        "over" => {
            // too long is all that is said, also of what starts badly
            let bad_start = random.below(2) == 0;
            let mut bytes = exactly_most::<D>(random, first);
            bytes.push(0x4b);
            bytes[0] ^= u8::from(bad_start);
            bytes
        }
        "empty" => Vec::new(),
        _ => return sound::<D>(seed, name),
    })
}

/// The same of a kind whose records all read.
pub fn sound<D: Drawn>(seed: u64, name: &str) -> Result<Vec<u8>, String> {
    let mut random = Random::new(seed);
    let find = |name| kinds::<D>().find(|kind| kind.name == name);
    let (kind, records) = match (find(name), name.strip_prefix("long-").and_then(find)) {
        (Some(kind), _) => (kind, 4 + random.below(117) as usize),
        (None, Some(kind)) => (kind, usize::MAX),
        (None, None) => return Err(format!("there is no kind {name}")),
    };
    Ok(drawn::<D>(random, kind, records).bytes)
}

fn kinds<D: Drawn>() -> impl Iterator<Item = &'static Kind> {
    D::KINDS.iter().chain(D::FURTHER)
}

/// At most so many steps, and at most the greatest length.
fn drawn<D: Drawn>(random: Random, kind: &Kind, steps: usize) -> Draft<D> {
    let longest = HEAD + D::LENGTHS.iter().max().expect("operations");
    let mut d = Draft::new(random);
    D::begin(&mut d);
    let mut left = steps;
    while left > 0 && d.room() > longest {
        d.step(kind);
        left -= 1;
    }
    D::finish(&mut d);
    d
}

fn exactly_most<D: Drawn>(random: Random, kind: &Kind) -> Vec<u8> {
    let mut d = Draft::<D>::new(random);
    D::begin(&mut d);
    d.fill(kind);
    D::finish(&mut d);
    assert_eq!(d.bytes.len(), MOST);
    d.bytes
}

/// Writes `count` of them into a folder: an empty one, some as long as may be and
/// one byte longer, one in sixteen long, the others short.
pub fn many<D: Damaged>(
    seed: u64,
    count: usize,
    folder: &Path,
    ending: &str,
) -> Result<(), String> {
    let mut random = Random::new(seed);
    for i in 0..count {
        let name = name::<D>(i);
        let bytes = generate::<D>(random.next(), &name)?;
        write(folder, &format!("{i:05}-{name}.{ending}"), &bytes)?;
    }
    Ok(())
}

pub fn write(folder: &Path, name: &str, bytes: &[u8]) -> Result<(), String> {
    let path = folder.join(name);
    fs::write(&path, bytes).map_err(|why| format!("{}: {why}", path.display()))
}

fn name<D: Drawn>(i: usize) -> String {
    let kinds: Vec<_> = kinds::<D>().collect();
    let kind = |i: usize| kinds[i % kinds.len()].name;
    match (i % 256, i % 16) {
        (0, _) => "empty".into(),
        (1, _) => "full".into(),
        (2, _) => "over".into(),
        (_, 15) => format!("long-{}", kind(i / 16)),
        (_, 3 | 7 | 11) => "damaged".into(),
        (_, k) => kind(i / 16 + k).into(),
    }
}
