impl<const MAILBOXES: usize, const ENDPOINTS: usize, const DEPTH: usize>
    Table<MAILBOXES, ENDPOINTS, DEPTH>
{
    pub fn next_generation(&self) -> u16 {
        self.next_gen
    }

    pub fn mailboxes(&self) -> Vec<crate::views::Mailbox> {
        let show = |m: &Mailbox<DEPTH>| crate::views::Mailbox {
            live: m.live,
            ephemeral: m.auto_reap,
            holds: m.send_holders,
            head: m.head,
            tail: m.tail,
            length: m.len,
            waiter: m.waiter,
            places: m.buf.to_vec(),
        };
        self.mailboxes.iter().map(show).collect()
    }

    pub fn endpoints(&self) -> Vec<crate::views::Endpoint> {
        self.endpoints.iter().map(Endpoint::shown).collect()
    }

    pub fn endpoint(&self, index: usize) -> Option<crate::views::Endpoint> {
        self.endpoints.get(index).map(Endpoint::shown)
    }

    pub fn mailbox_of(&self, endpoint: usize) -> usize {
        self.endpoints[endpoint].mailbox.into()
    }

    pub fn ring_of(&self, endpoint: usize) -> Option<crate::views::Ring> {
        let mailbox = usize::from(self.endpoints.get(endpoint)?.mailbox);
        let &Mailbox { head, tail, .. } = self.mailboxes.get(mailbox)?;
        Some(crate::views::Ring {
            mailbox,
            head,
            tail,
        })
    }

    pub fn copied(&self) -> Self {
        Self {
            endpoints: self.endpoints,
            mailboxes: self.mailboxes,
            next_gen: self.next_gen,
            refusals: self.refusals,
        }
    }
}

impl Endpoint {
    fn shown(&self) -> crate::views::Endpoint {
        crate::views::Endpoint {
            live: self.live,
            generation: self.generation,
            rights: self.rights,
            mailbox: self.mailbox,
        }
    }
}
