//! Drawn operands of a script: mostly such that the operation does something.

use super::dispatcher::{Jobs, PLACES};
use super::variants::{Tag, VARIANTS};
use crate::draft::Draft;
use crate::draw::Draw;
use crate::edges;
use crate::kinds::first_sizes;
use crate::tables::ROWS;

/// More than are bound at a time; some differ in one byte, some are no text.
const TAGS: [&Tag; 20] = [
    b"pt-PT",
    b"pt-BR",
    b"pt-AO",
    b"pt-MZ",
    b"pt-PU",
    b"qt-PT",
    b"pt_PT",
    b"pT-PT",
    b"de-DE",
    b"de-AT",
    b"en-GB",
    b"en-US",
    b"fr-FR",
    b"fr-CA",
    b"es-ES",
    b"es-MX",
    b"zh-TW",
    b"\0\0\0\0\0",
    b"pt-P\0",
    &[255; 5],
];

pub fn operands(d: &mut Draft<Jobs>, edge_in: u64, operation: u8) -> Vec<u8> {
    let sent = d.known.sent;
    let mut draw = Draw { d, edge_in };
    match operation {
        0 => {
            let sizes = match draw.one_in(3) {
                true => draw.sizes(),
                false => first_sizes(draw.d).unwrap_or([32, 64, 8]),
            };
            [sizes.to_vec(), draw.variants_or_edge()].concat()
        }
        1 => {
            let with_room = draw.one_in(2);
            draw.opening(with_room)
        }
        2 => vec![draw.place()],
        3 => [draw.end(true).to_vec(), draw.message(sent)].concat(),
        4 => draw.end(false).to_vec(),
        5 => [draw.end(false).to_vec(), draw.task()].concat(),
        6 => vec![draw.row()],
        _ => Vec::new(),
    }
}

/// A count, and variants that making accepts: so many are bound, and the others
/// might be too or are anything. Their rows are all over, or few, or one.
pub fn variants(d: &mut Draft<Jobs>) -> Vec<u8> {
    let random = &mut d.random;
    let count = match random.below(8) {
        0 => 16,
        1 => random.below(2),
        _ => 2 + random.below(8),
    };
    let (first, apart) = (random.below(20), random.pick(&[1, 3, 7, 9]));
    let (base, rows) = (random.below(40), random.pick(&[1, 3, 8, 14]));
    let anything = random.below(2) == 0;
    let mut bytes = vec![count as u8];
    for i in 0..VARIANTS as u64 {
        let mut tag = TAGS[(first + apart * i) as usize % TAGS.len()];
        let mut row = (base + random.below(rows)) as u8;
        if i >= count && anything {
            let like = (first + apart * random.below(count + 1)) as usize % TAGS.len();
            tag = random.pick(&[tag, tag, TAGS[like], &[0; 5]]);
            row = random.pick(&[row, row, 0, 54, 255]);
        }
        bytes.extend(tag);
        bytes.push(row);
    }
    bytes
}

impl Draw<'_, Jobs> {
    /// At an edge with something that making refuses.
    fn variants_or_edge(&mut self) -> Vec<u8> {
        let mut bytes = variants(self.d);
        if !self.one_in(4) && !self.at_edge() {
            return bytes;
        }
        let bound = u64::from(bytes[0].max(2));
        let random = self.random();
        let (one, other) = (random.below(bound) as usize, random.below(bound) as usize);
        match random.below(3) {
            0 => bytes[0] = random.pick(&[17, 18, 255]),
            1 => bytes.copy_within(1 + 6 * one..6 + 6 * one, 1 + 6 * other),
            _ => bytes[6 + 6 * one] = random.pick(&edges::ROWS),
        }
        bytes
    }

    /// A tag and the extractor's row, each with an empty slot where that is asked
    /// for and there are such.
    pub fn opening(&mut self, with_room: bool) -> Vec<u8> {
        let tag = self.tag(with_room);
        let bound = self.d.tables.row_of(tag);
        let row = match bound {
            _ if self.at_edge() => self.random().pick(&edges::ROWS),
            Some(row) if self.one_in(6) => row as u8,
            _ if with_room => {
                let from = self.random().below(ROWS as u64) as usize;
                let mut rows = (from..ROWS).chain(0..from);
                let roomy = |row: &usize| Some(*row) != bound && self.has_room(*row);
                rows.find(roomy).unwrap_or(from) as u8
            }
            _ => self.row(),
        };
        [&tag[..], &[row]].concat()
    }

    fn tag(&mut self, with_room: bool) -> Tag {
        if self.at_edge() || self.one_in(24) {
            return *self.random().pick(&TAGS);
        }
        let jobs = &self.d.tables;
        let mut among = jobs.bound.clone();
        if with_room && among.iter().any(|variant| self.has_room(variant.row)) {
            among.retain(|variant| self.has_room(variant.row));
        }
        if !jobs.seen.unbound.is_empty() && self.one_in(32) {
            among = self.d.tables.seen.unbound.clone();
        }
        match among.is_empty() {
            true => *self.random().pick(&TAGS),
            false => self.random().pick(&among).tag,
        }
    }

    fn has_room(&self, row: usize) -> bool {
        let rows = self.d.tables.tables.rows.rows();
        rows[row].iter().any(Option::is_none)
    }

    /// Mostly one that is open.
    fn place(&mut self) -> u8 {
        if self.at_edge() {
            return self.random().pick(&[15, 16, 17, 255]);
        }
        let open = |place: &u8| self.d.tables.places[usize::from(*place)].is_some();
        let places: Vec<u8> = (0..PLACES as u8).filter(open).collect();
        if places.is_empty() || self.one_in(8) {
            return self.random().below(PLACES as u64) as u8;
        }
        self.random().pick(&places)
    }

    /// Row and slot: mostly a send end, or a receive end, of an open job; or the
    /// other end, or a slot that held one, or any.
    fn end(&mut self, send: bool) -> [u8; 2] {
        if self.at_edge() {
            return [self.row(), self.slot()];
        }
        let wanted = send != self.one_in(24);
        let ends = match self.one_in(16) {
            true => self.d.tables.seen.slots.iter().copied().collect(),
            false => self.ends(wanted),
        };
        if ends.is_empty() {
            return [self.row(), self.slot()];
        }
        self.random().pick(&ends).map(|part| part as u8)
    }

    fn ends(&self, send: bool) -> Vec<[usize; 2]> {
        let jobs = &self.d.tables;
        let open = jobs.places.iter().flatten();
        open.filter_map(|job| jobs.slot_of(if send { job.send } else { job.recv }))
            .collect()
    }
}
