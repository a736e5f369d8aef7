//! Beside the tables: for which job each message that waits was accepted. No
//! answer comes from here; a message that reaches another row ends the run.

use super::dispatcher::Job;
use super::variants::{Variant, shown};
use crate::stamps::Stamped;
use std::collections::VecDeque;

struct Sentence {
    job: Job,
    sent: Stamped,
}

/// By mailbox, the oldest first.
#[derive(Default)]
pub struct Accepted([VecDeque<Sentence>; 32]);

impl Accepted {
    pub fn put(&mut self, mailbox: usize, job: Job, sent: Stamped) {
        self.0[mailbox].push_back(Sentence { job, sent });
    }

    /// The oldest message of a mailbox comes out at a row.
    pub fn given(
        &mut self,
        mailbox: usize,
        given: Stamped,
        row: usize,
        bound: &[Variant],
    ) -> Result<(), String> {
        let Some(Sentence { job, sent }) = self.0[mailbox].pop_front() else {
            return Err(format!("row {row} is given {given:?}, which nobody sent"));
        };
        let (number, tag) = (job.number, shown(job.tag));
        if sent != given {
            return Err(format!(
                "job {number} ({tag}) was sent {sent:?}, and row {row} is given {given:?}"
            ));
        }
        match bound.iter().find(|variant| variant.tag == job.tag) {
            Some(variant) if variant.row == row => Ok(()),
            Some(variant) => Err(format!(
                "a message accepted for job {number} reaches row {row}, and {tag} is bound to row {}",
                variant.row
            )),
            None => Err(format!(
                "a message accepted for job {number} reaches row {row}, and {tag} is not bound"
            )),
        }
    }

    pub fn dropped(&mut self, mailbox: usize) {
        self.0[mailbox].clear();
    }
}
