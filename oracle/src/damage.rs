//! Damaged logs and scripts: a sound one, and at one of its records a fault.

use crate::draft::{Draft, Drawn};
use crate::edges;
use crate::random::Random;
use crate::records::{HEAD, Played};
use crate::tables::Tables;

/// Each gives a record with a fault of its own.
pub type Faults<D> = &'static [fn(&mut Draft<D>) -> Vec<u8>];

/// Faults that only records with such operands can have.
pub trait Damaged: Drawn {
    const FAULTS: Faults<Self>;
}

impl Damaged for Tables {
    const FAULTS: Faults<Self> = &[|d| bad_flag(&mut d.random), bad_list, bad_sender];
}

/// The draft's bytes with a fault put in before a drawn record, or at the end.
pub fn damaged<D: Damaged>(mut d: Draft<D>) -> Vec<u8> {
    let at = match d.random.below(d.starts.len() as u64 + 1) as usize {
        0 => d.bytes.len(),
        i => d.starts[i - 1],
    };
    let rest = d.bytes.split_off(at);
    let mut bytes = d.bytes.clone();
    let fault = match d.random.below(3 + D::FAULTS.len() as u64) as usize {
        0 => return [bytes, cut(&mut d)].concat(),
        1 => bad_mark(&mut d),
        2 => bad_operation(&mut d),
        own => D::FAULTS[own - 3](&mut d),
    };
    bytes.extend(fault);
    if d.random.below(2) == 0 {
        bytes.extend(rest);
    }
    bytes
}

/// A whole record of an operation, and what is drawn for it.
fn whole<D: Drawn>(d: &mut Draft<D>, operation: u8) -> Vec<u8> {
    let operands = D::operands(d, 8, operation);
    [&D::MARK[..], &[operation], &operands].concat()
}

fn any<D: Drawn>(d: &mut Draft<D>) -> Vec<u8> {
    let operation = d.random.below(D::LENGTHS.len() as u64) as u8;
    whole(d, operation)
}

/// Cut within the mark, before the operation, before the operands, within them,
/// or before the last byte; at times of a record that has another fault too,
/// which then is not the one to report.
fn cut<D: Damaged>(d: &mut Draft<D>) -> Vec<u8> {
    let mut record = match d.random.below(6) as usize {
        i if i < D::FAULTS.len() => D::FAULTS[D::FAULTS.len() - 1 - i](d),
        _ => any(d),
    };
    let last = record.len() as u64 - 1;
    let length = match d.random.below(5) {
        0 => {
            // one byte is too few, whatever it is
            record[0] = d.random.pick(&[D::MARK[0], D::MARK[1], 0, 255]);
            1
        }
        1 => 2,
        2 => last.min(HEAD as u64),
        3 => last,
        _ => 1 + d.random.below(last),
    };
    record.truncate(length as usize);
    record
}

/// One byte of the mark is another, or the two are swapped; the record may be
/// cut to the mark, or unlisted besides.
fn bad_mark<D: Drawn>(d: &mut Draft<D>) -> Vec<u8> {
    let mut record = any(d);
    match d.random.below(3) {
        0 => record.swap(0, 1),
        which => record[which as usize - 1] ^= 1 + d.random.below(255) as u8,
    }
    match d.random.below(4) {
        0 => record.truncate(2),
        1 => record[2] = D::LENGTHS.len() as u8,
        _ => {}
    }
    record
}

/// An unlisted operation; also as the very last byte.
fn bad_operation<D: Drawn>(d: &mut Draft<D>) -> Vec<u8> {
    let first = D::LENGTHS.len() as u8;
    let mut record = any(d);
    record[2] = match d.random.below(3) {
        0 => first,
        1 => 255,
        _ => first + d.random.below(256 - u64::from(first)) as u8,
    };
    if d.random.below(2) == 0 {
        record.truncate(HEAD);
    }
    record
}

fn bad_flag(random: &mut Random) -> Vec<u8> {
    let flag = random.pick(&[2, 3, 128, 255]);
    [&Tables::MARK[..], &[1, flag]].concat()
}

/// A list with a presence byte above 1, or with an id where it has none.
fn bad_list(d: &mut Draft<Tables>) -> Vec<u8> {
    let operation = d.random.pick(&[7, 8, 15, 24]);
    let mut record = whole(d, operation);
    let first = record.len() - 20;
    let place = &mut record[first + 5 * d.random.below(4) as usize..][..5];
    if d.random.below(2) == 0 {
        place[0] = d.random.pick(&[2, 3, 128, 255]);
    } else {
        place.fill(0);
        place[1 + d.random.below(4) as usize] = d.random.pick(&[1, 128, 255]);
    }
    record
}

/// A message from a row from 54 up.
fn bad_sender(d: &mut Draft<Tables>) -> Vec<u8> {
    let mut record = whole(d, 2);
    *record.last_mut().expect("operands") = d.random.pick(&edges::BAD_SENDERS);
    record
}
