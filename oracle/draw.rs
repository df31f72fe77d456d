// Numbers by splitmix64: the same in each run of a seed.
pub struct Draw(pub u64);

// Each program takes what it needs.
#[allow(dead_code)]
impl Draw {
    pub fn next(&mut self) -> u64 {
        self.0 = self.0.wrapping_add(0x9e37_79b9_7f4a_7c15);
        let z = (self.0 ^ self.0 >> 30).wrapping_mul(0xbf58_476d_1ce4_e5b9);
        let z = (z ^ z >> 27).wrapping_mul(0x94d0_49bb_1331_11eb);
        z ^ z >> 31
    }
    pub fn below(&mut self, n: u64) -> u64 {
        self.next() % n
    }
    /// A place among n.
    pub fn place(&mut self, n: usize) -> usize {
        self.below(n as u64) as usize
    }
    pub fn unit(&mut self) -> f64 {
        (self.next() >> 11) as f64 / (1u64 << 53) as f64
    }
    pub fn one_in(&mut self, n: u64) -> bool {
        self.below(n) == 0
    }
    /// One of some things, to be altered.
    pub fn any<'a, T>(&mut self, v: &'a mut [T]) -> &'a mut T {
        let i = self.place(v.len());
        &mut v[i]
    }
}
