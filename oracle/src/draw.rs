//! Drawn operands: mostly such that the operation does something, sometimes
//! stale, near, or at an edge.

use crate::draft::{Draft, Drawn};
use crate::edges;
use crate::ids::End;
use crate::kinds::Known;
use crate::random::Random;
use crate::tables::{ROWS, SIZES, SLOTS, Tables};

/// The operands of an operation of the log.
pub fn operands(d: &mut Draft<Tables>, edge_in: u64, operation: u8) -> Vec<u8> {
    let mut draw = Draw { d, edge_in };
    match operation {
        0 => draw.sizes().to_vec(),
        14 => {
            let row = draw.row();
            [vec![row], bytes(draw.held(row))].concat()
        }
        19 | 21 | 22 => bytes(draw.number()),
        20 | 23 => bytes(draw.minted()),
        _ => draw.on_channels(operation, Draw::id),
    }
}

pub fn bytes(word: u32) -> Vec<u8> {
    word.to_le_bytes().to_vec()
}

pub struct Draw<'a, D: Drawn> {
    pub d: &'a mut Draft<D>,
    pub edge_in: u64,
}

/// What logs and scripts both draw.
impl<D: Drawn> Draw<'_, D> {
    pub fn random(&mut self) -> &mut Random {
        &mut self.d.random
    }

    pub fn one_in(&mut self, n: u64) -> bool {
        self.random().below(n) == 0
    }

    pub fn at_edge(&mut self) -> bool {
        self.one_in(self.edge_in)
    }

    pub fn sizes(&mut self) -> [u8; 3] {
        if self.one_in(4) || self.at_edge() {
            return self.random().pick(&edges::REFUSED_SIZES);
        }
        self.random().pick(&SIZES).map(|size| size as u8)
    }

    /// The message after so many that were sent.
    pub fn message(&mut self, sent: u32) -> Vec<u8> {
        let (tag, a, b) = match self.random().below(32) {
            0 => (u32::MAX, u64::MAX, u64::MAX),
            1 => (0, 0, 0),
            _ => (sent, self.random().next(), sent.into()),
        };
        [bytes(tag), a.to_le_bytes().into(), b.to_le_bytes().into()].concat()
    }

    pub fn task(&mut self) -> Vec<u8> {
        let likely = if self.one_in(4) {
            edges::TASKS.len()
        } else {
            3
        };
        let task = self.random().pick(&edges::TASKS[..likely]);
        task.iter().flat_map(|part| part.to_le_bytes()).collect()
    }

    /// Mostly one of few, so that rows fill.
    pub fn row(&mut self) -> u8 {
        if self.at_edge() {
            return self.random().pick(&edges::ROWS);
        }
        let rows = if self.one_in(8) { ROWS } else { 3 };
        self.random().below(rows as u64) as u8
    }

    pub fn slot(&mut self) -> u8 {
        if self.at_edge() {
            return self.random().pick(&edges::SLOTS);
        }
        self.random().below(SLOTS as u64) as u8
    }
}

/// What logs draw.
impl<D: Drawn<Known = Known>> Draw<'_, D> {
    /// The operands of an operation on channels and rows; ids for slots and lists
    /// are drawn by `put`.
    pub fn on_channels(&mut self, operation: u8, put: fn(&mut Self, End) -> u32) -> Vec<u8> {
        let sent = self.d.known.sent;
        match operation {
            1 => vec![self.random().below(2) as u8],
            2 => {
                let (id, message) = (self.id(End::Send), self.message(sent));
                [bytes(id), message, vec![self.sender()]].concat()
            }
            3 => bytes(self.id(End::Receive)),
            4 => [bytes(self.id(End::Receive)), self.task()].concat(),
            5 | 6 => bytes(self.id(End::Either)),
            7 | 8 => self.list(put),
            9 => bytes(self.id(End::Send)),
            10 => self.task(),
            13 => vec![self.row(), self.slot()],
            15 | 24 => [vec![self.row()], self.list(put)].concat(),
            16 | 26 => [vec![self.row(), self.slot()], bytes(put(self, End::Either))].concat(),
            17 => self.two_places(),
            18 | 25 => vec![self.row()],
            _ => Vec::new(),
        }
    }

    /// A row that may send, the first and the last oftener. It is drawn aside, so
    /// that without it a log is what it was when messages had no sender.
    fn sender(&mut self) -> u8 {
        let mut aside = self.random().aside();
        match aside.below(8) {
            0 => aside.pick(&edges::SENDERS),
            _ => aside.below(ROWS as u64) as u8,
        }
    }

    /// Four places; some lists name one channel again and again.
    fn list(&mut self, put: fn(&mut Self, End) -> u32) -> Vec<u8> {
        let same = self.one_in(6).then(|| put(self, End::Send));
        let mut list = Vec::new();
        for _ in 0..SLOTS {
            if self.one_in(4) {
                list.extend([0; 5]);
                continue;
            }
            let end = match self.random().below(6) {
                0 => End::Either,
                _ => End::Send,
            };
            list.push(1);
            list.extend(bytes(same.unwrap_or_else(|| put(self, end))));
        }
        list
    }

    /// From row and slot, to row and slot: at times one place twice.
    pub fn two_places(&mut self) -> Vec<u8> {
        let from = [self.row(), self.slot()];
        let to = if self.one_in(8) {
            from
        } else {
            [self.row(), self.slot()]
        };
        [from, to].concat()
    }
}

impl Draw<'_, Tables> {
    /// A task's one number, or a cookie.
    fn number(&mut self) -> u32 {
        if self.at_edge() {
            return self.random().pick(&edges::NUMBERS);
        }
        self.random().below(6) as u32
    }
}
