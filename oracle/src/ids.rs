//! Drawn ids.

use crate::draft::Drawn;
use crate::draw::Draw;
use crate::edges;
use crate::kinds::Known;
use crate::tables::Tables;

/// The end of a channel that an id is wanted for.
#[derive(Clone, Copy)]
pub enum End {
    Send,
    Receive,
    Either,
}

impl<D: Drawn<Known = Known>> Draw<'_, D> {
    /// An id for this end: of a live channel, mostly of one of the last two; or
    /// the other end, or revoked, or next to a live one, or no endpoint's.
    pub fn id(&mut self, end: End) -> u32 {
        if self.at_edge() {
            return self.random().pick(&edges::IDS);
        }
        match self.random().below(24) {
            0 => self.end(end, true, true),
            1 | 2 => self.end(end, false, false),
            3 => self.near(end),
            4 => self.minted(),
            _ => self.end(end, true, false),
        }
    }

    pub fn end(&mut self, end: End, live: bool, other: bool) -> u32 {
        let known = &self.d.known;
        let from = if live { &known.live } else { &known.revoked };
        let count = from.len() as u64;
        if count == 0 {
            return self.random().pick(&edges::IDS);
        }
        let random = &mut self.d.random;
        let back = match random.below(2) {
            0 => random.below(count.min(2)),
            _ => random.below(count),
        };
        let ends = from[(count - 1 - back) as usize];
        let receive = match end {
            End::Send => other,
            End::Receive => !other,
            End::Either => random.below(2) == 1,
        };
        ends[usize::from(receive)]
    }

    /// A live id with its index, class or generation off by a little.
    fn near(&mut self, end: End) -> u32 {
        let id = self.end(end, true, false);
        let (index, generation) = (id as u16, (id >> 16) as u16);
        let (index, generation) = match self.random().below(6) {
            0 => (index, generation.wrapping_add(1)),
            1 => (index, generation.wrapping_sub(1)),
            2 => (index.wrapping_add(2), generation),
            3 => (index | 64, generation),
            4 => (index | 16_384, generation),
            _ => (index | 32_768, generation),
        };
        u32::from(generation) << 16 | u32::from(index)
    }

    pub fn minted(&mut self) -> u32 {
        if self.d.known.minted.is_empty() || self.at_edge() {
            return self.random().pick(&edges::IDS);
        }
        let id = self.d.random.pick(&self.d.known.minted);
        let off = [1, 32, 65_536, 16_384];
        if self.one_in(8) {
            return id.wrapping_add(self.random().pick(&off));
        }
        id
    }
}

impl Draw<'_, Tables> {
    /// Mostly an id that the row holds, if it holds one.
    pub fn held(&mut self, row: u8) -> u32 {
        let slot = self.slot();
        match self.d.tables.rows.get(row.into(), slot.into()) {
            Ok(id) if !self.one_in(4) => id.raw(),
            _ => self.id(End::Either),
        }
    }
}
