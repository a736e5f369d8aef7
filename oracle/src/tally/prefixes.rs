//! Many such logs, and the prefixes of some: what holds after a run holds after
//! every run that it goes through.

use super::premises::Tallied;
use crate::draft::Drawn;
use crate::generate::{sound, write};
use crate::random::Random;
use crate::records;
use std::fs;
use std::path::Path;

/// One log in so many is long.
const LONG: usize = 16;

/// One log in so many is there with its prefixes.
const WHOLE: usize = 25;

/// Of a long log only two prefixes next to each other at so many places.
const PLACES: usize = 64;

/// Writes `count` logs into a folder, and prefixes into its folder `prefixes`.
pub fn many(seed: u64, count: usize, folder: &Path) -> Result<(), String> {
    let mut random = Random::new(seed);
    let within = folder.join("prefixes");
    fs::create_dir(&within).map_err(|why| why.to_string())?;
    for i in 0..count {
        let kind = name(i);
        let log = sound::<Tallied>(random.next(), &kind)?;
        let name = format!("{i:05}-{kind}");
        write(folder, &format!("{name}.log"), &log)?;
        if i % WHOLE == 0 {
            for (records, prefix) in prefixes(&log) {
                write(&within, &format!("{name}-{records:05}.log"), prefix)?;
            }
        }
    }
    Ok(())
}

fn name(i: usize) -> String {
    let kinds = Tallied::KINDS;
    let long = if i % LONG == LONG - 1 { "long-" } else { "" };
    format!("{long}{}", kinds[i % kinds.len()].name)
}

/// The log after so many records, from none to all.
fn prefixes(log: &[u8]) -> Vec<(usize, &[u8])> {
    let mut ends = vec![0];
    let mut end = 0;
    while end < log.len() {
        let record = records::record::<Tallied>(&log[end..]);
        end += record.expect("a record that reads").length;
        ends.push(end);
    }
    let step = (ends.len() / PLACES).max(2);
    let ends = ends.into_iter().enumerate();
    let taken = ends.filter(|(records, _)| records % step < 2);
    taken.map(|(records, end)| (records, &log[..end])).collect()
}
