impl Table {
    pub fn entries(&self) -> Vec<crate::views::Entry> {
        let show = |e: &Entry| crate::views::Entry {
            live: e.live,
            generation: e.generation,
            number: e.cookie,
        };
        self.entries.iter().map(show).collect()
    }
}
