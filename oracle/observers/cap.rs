impl CapRights {
    pub fn bits(self) -> u8 {
        self.0
    }
}
