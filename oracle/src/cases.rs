//! Cases of `bind`, and the bytes that they travel in: a pool byte, four times
//! a presence byte and an index byte, a count, and that many words of eight
//! bytes, little-endian.

use crate::manifest::MAX_SLOTS;
use crate::random::Random;

/// The bytes before the held words.
const HEAD: usize = 2 + 2 * MAX_SLOTS;
/// A word that holds an id is this and the id's raw number.
const PRESENT: u64 = 1 << 32;

#[derive(Clone)]
pub struct Case {
    pub pool: bool,
    pub wants: [Option<u8>; MAX_SLOTS],
    pub held: Vec<u64>,
}

impl Case {
    fn new(pool: bool, held: Vec<u64>) -> Self {
        Self {
            pool,
            wants: [None; MAX_SLOTS],
            held,
        }
    }

    pub fn write(&self, out: &mut Vec<u8>) {
        out.push(u8::from(self.pool));
        for want in self.wants {
            // the index byte of an absent want is never read, so it is not 0
            out.extend(want.map_or([0, 170], |index| [1, index]));
        }
        out.push(u8::try_from(self.held.len()).expect("at most 255 words"));
        out.extend(self.held.iter().flat_map(|word| word.to_le_bytes()));
    }

    /// The case at the start of `bytes` and how long it is, or nothing where it
    /// is cut short or a flag is above 1.
    pub fn read(bytes: &[u8]) -> Option<(Self, usize)> {
        let head = bytes.get(..HEAD)?;
        let end = HEAD + 8 * usize::from(head[HEAD - 1]);
        let words = bytes.get(HEAD..end)?.chunks_exact(8);
        let mut case = Self::new(
            flag(head[0])?,
            words
                .map(|word| u64::from_le_bytes(word.try_into().unwrap()))
                .collect(),
        );
        for (slot, want) in case.wants.iter_mut().enumerate() {
            let index = head[2 + 2 * slot];
            *want = flag(head[1 + 2 * slot])?.then_some(index);
        }
        Some((case, end))
    }
}

fn flag(byte: u8) -> Option<bool> {
    (byte <= 1).then_some(byte == 1)
}

/// A list whose every place holds an id, raw 0 among them.
fn full(length: usize) -> Vec<u64> {
    (0..length as u64)
        .map(|i| PRESENT + i * 16_843_009)
        .collect()
}

/// Both sides of each edge, at each slot: the index one below, at and one past
/// the held length, and on both sides of the packet pool's first index; the
/// place held or vacant; alone, or between slots that bind and slots that ask
/// for more than there is, which is the second fault and not the one to report.
pub fn edges() -> Vec<Case> {
    let mut cases = Vec::new();
    for pool in [false, true] {
        for length in [0usize, 1, 2, 3, 4, 12] {
            let mut indices = vec![2, 3, length, length + 1];
            indices.extend(length.checked_sub(1));
            indices.sort_unstable();
            indices.dedup();
            for index in indices {
                for slot in 0..MAX_SLOTS {
                    edge(&mut cases, pool, length, index, slot);
                }
            }
        }
    }
    cases
}

fn edge(cases: &mut Vec<Case>, pool: bool, length: usize, index: usize, slot: usize) {
    let mut alone = Case::new(pool, full(length));
    alone.wants[slot] = Some(index as u8);
    let mut between = alone.clone();
    between.wants[..slot].fill((length > 0).then_some(0));
    between.wants[slot + 1..].fill(Some(255));
    for mut case in [alone, between] {
        cases.push(case.clone());
        if index < length {
            case.held[index] = 0;
            cases.push(case);
        }
    }
}

/// Every index, with and without the packet pool, against lists short and long.
pub fn sweep() -> Vec<Case> {
    let mut cases = Vec::new();
    for pool in [false, true] {
        for length in [0, 3, 12, 255] {
            for index in 0..=255 {
                let mut case = Case::new(pool, full(length));
                case.wants[usize::from(index) % MAX_SLOTS] = Some(index);
                cases.push(case);
            }
        }
    }
    cases
}

/// Drawn cases: lists of up to twelve places, some vacant, and indices that
/// mostly fall inside the list or just past it.
pub fn drawn(seed: u64, count: usize) -> Vec<Case> {
    let mut random = Random::new(seed);
    (0..count).map(|_| draw(&mut random)).collect()
}

fn draw(random: &mut Random) -> Case {
    let length = random.below(13) as usize;
    let vacant_in = [2, 4, 16, 1000][random.below(4) as usize];
    let held = (0..length).map(|_| word(random, vacant_in)).collect();
    let mut case = Case::new(random.below(4) > 0, held);
    for want in &mut case.wants {
        let index = match random.below(16) {
            0 => random.below(256),
            1 => length as u64 + random.below(2),
            _ => random.below(length as u64 + u64::from(length == 0)),
        };
        *want = (random.below(4) > 0).then_some(index as u8);
    }
    case
}

/// A word that reads, vacant once in `vacant_in` times.
fn word(random: &mut Random, vacant_in: u64) -> u64 {
    if random.below(vacant_in) == 0 {
        return 0;
    }
    PRESENT + (random.next() & 0xffff_ffff)
}

/// Drawn cases with one word that does not read, asked for or not. The Rust has
/// no such words, so these are held to document 01 alone, which answers 21.
pub fn bad_words(seed: u64, count: usize) -> Vec<Case> {
    let mut random = Random::new(seed);
    let mut cases = Vec::new();
    while cases.len() < count {
        let mut case = draw(&mut random);
        if case.held.is_empty() {
            continue;
        }
        let place = random.below(case.held.len() as u64) as usize;
        case.held[place] = match random.below(6) {
            0 => 1,
            1 => PRESENT - 1,
            2 => 2 * PRESENT,
            3 => u64::MAX,
            4 => 1 + random.below(PRESENT - 1),
            _ => 2 * PRESENT + random.below(u64::MAX - 2 * PRESENT),
        };
        cases.push(case);
    }
    cases
}
