impl<const TASKS: usize, const SLOTS: usize> Table<TASKS, SLOTS> {
    pub fn rows(&self) -> &[[Option<CapId>; SLOTS]] {
        &self.slots
    }
}
