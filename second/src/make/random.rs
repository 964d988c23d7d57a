//! Numbers from a seed (splitmix64): no clock, no floating point, the same on every machine.

#[derive(Clone, Debug)]
pub struct Random {
    state: u64,
}

impl Random {
    pub fn new(seed: u64) -> Random {
        Random { state: seed }
    }

    fn draw(&mut self) -> u64 {
        self.state = self.state.wrapping_add(0x9e37_79b9_7f4a_7c15);
        let mut mixed = self.state;
        mixed = (mixed ^ (mixed >> 30)).wrapping_mul(0xbf58_476d_1ce4_e5b9);
        mixed = (mixed ^ (mixed >> 27)).wrapping_mul(0x94d0_49bb_1331_11eb);
        mixed ^ (mixed >> 31)
    }

    /// A number below `end`; 0 if there is none.
    pub fn below(&mut self, end: usize) -> usize {
        match end {
            0 => 0,
            end => (self.draw() % end as u64) as usize,
        }
    }

    /// A number in `low..=high`.
    pub fn between(&mut self, low: usize, high: usize) -> usize {
        low + self.below(high.saturating_sub(low) + 1)
    }

    /// True once in so many times.
    pub fn one_in(&mut self, times: usize) -> bool {
        self.below(times) == 0
    }

    pub fn word(&mut self) -> u16 {
        self.draw() as u16
    }

    pub fn byte(&mut self) -> u8 {
        self.draw() as u8
    }

    /// One of several; there must be one.
    pub fn pick<'t, T>(&mut self, among: &'t [T]) -> &'t T {
        let at = self.below(among.len());
        &among[at]
    }

    /// One of several texts.
    pub fn text(&mut self, among: &[&'static str]) -> &'static str {
        let at = self.below(among.len());
        among[at]
    }
}
