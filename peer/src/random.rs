//! Random numbers from a seed, and random damage to a file. The same seed gives the same file always.

/// The generator splitmix64.
pub struct Random(u64);

impl Random {
    pub fn new(seed: u64) -> Random {
        Random(seed)
    }

    pub fn next(&mut self) -> u64 {
        self.0 = self.0.wrapping_add(0x9e37_79b9_7f4a_7c15);
        let mut z = self.0;
        z = (z ^ (z >> 30)).wrapping_mul(0xbf58_476d_1ce4_e5b9);
        z = (z ^ (z >> 27)).wrapping_mul(0x94d0_49bb_1331_11eb);
        z ^ (z >> 31)
    }

    /// A number from 0 to limit-1.
    pub fn below(&mut self, limit: usize) -> usize {
        (self.next() % limit as u64) as usize
    }

    /// A number from first to last, both included.
    pub fn from_to(&mut self, first: usize, last: usize) -> usize {
        first + self.below(last - first + 1)
    }

    /// True once in `times`.
    pub fn one_in(&mut self, times: usize) -> bool {
        self.below(times) == 0
    }

    pub fn pick<T: Copy>(&mut self, list: &[T]) -> T {
        list[self.below(list.len())]
    }

    pub fn byte(&mut self) -> u8 {
        self.next() as u8
    }

    pub fn shuffle<T>(&mut self, list: &mut [T]) {
        for k in (1..list.len()).rev() {
            list.swap(k, self.below(k + 1));
        }
    }

    /// A value at one of the limits.
    pub fn limit_value(&mut self) -> u32 {
        self.pick(&[0, u32::MAX])
    }

    /// Any value; the limits, small ones and single bytes often.
    pub fn value(&mut self) -> u32 {
        match self.below(6) {
            0 => self.limit_value(),
            1 => self.below(10) as u32,
            2 => self.pick(&[
                1,
                u32::MAX - 1,
                1 << 31,
                (1 << 31) - 1,
                0xff,
                0xff00,
                0x00ff_0000,
                0xff00_0000,
            ]),
            _ => self.next() as u32,
        }
    }

    /// Processes 1 to n in random order: all of them, or some, at least one.
    pub fn processes(&mut self, n: usize, all: bool) -> Vec<usize> {
        let mut list: Vec<usize> = (1..=n).collect();
        self.shuffle(&mut list);
        if !all {
            let length = self.from_to(1, n);
            list.truncate(length);
        }
        list
    }

    /// The list cut into blocks of random sizes.
    pub fn blocks(&mut self, list: &[usize]) -> Vec<Vec<usize>> {
        let most = self.from_to(1, list.len());
        let mut blocks = Vec::new();
        let mut rest = list;
        while !rest.is_empty() {
            let size = self.from_to(1, most.min(rest.len()));
            blocks.push(rest[..size].to_vec());
            rest = &rest[size..];
        }
        blocks
    }

    /// Where to damage: any byte, or one of the first ten.
    fn damage_at(&mut self, length: usize) -> usize {
        if self.one_in(5) {
            self.below(length.min(10))
        } else {
            self.below(length)
        }
    }

    /// Any byte; a letter of a mark often.
    fn damage_byte(&mut self) -> u8 {
        if self.one_in(3) {
            self.pick(b"MNESTCRVW")
        } else {
            self.byte()
        }
    }

    /// Changes one byte of a file that is not empty.
    pub fn change(&mut self, file: &mut [u8]) {
        let at = self.damage_at(file.len());
        let old = file[at];
        while file[at] == old {
            file[at] = self.damage_byte();
        }
    }

    /// Removes one byte of a file that is not empty.
    pub fn remove(&mut self, file: &mut Vec<u8>) {
        let at = self.damage_at(file.len());
        file.remove(at);
    }

    /// Inserts one byte.
    pub fn insert(&mut self, file: &mut Vec<u8>) {
        let at = self.damage_at(file.len() + 1);
        let byte = self.damage_byte();
        file.insert(at, byte);
    }

    /// Cuts off the end of a file that is not empty, from a random byte on.
    pub fn cut(&mut self, file: &mut Vec<u8>) {
        let at = self.damage_at(file.len());
        file.truncate(at);
    }

    /// A file of 0 to 3 bytes, by turns, of the begin of a header, letters of marks, or any bytes; or `MN` alone.
    pub fn tiny(&mut self, n: usize, turn: usize) -> Vec<u8> {
        let length = turn % 5;
        let header = [b'M', b'N', n as u8];
        if length == 4 {
            return header[..2].to_vec();
        }
        match self.below(3) {
            0 => header[..length].to_vec(),
            1 => (0..length).map(|_| self.pick(b"MNESTCRVW")).collect(),
            _ => (0..length).map(|_| self.byte()).collect(),
        }
    }

    /// A first record that is refused, by turns: a wrong n, a wrong mark, or none.
    pub fn bad_header(&mut self, turn: usize) -> Vec<u8> {
        let n = self.from_to(1, 32) as u8;
        match turn % 5 {
            0 => vec![b'M', b'N', 0],
            1 => vec![b'M', b'N', 33],
            2 => vec![b'M', b'N', self.from_to(33, 255) as u8],
            3 => {
                let mark = self.pick(&[b"EN", b"ST", b"CR", b"VW", b"NM", b"mn", b"MM", b"NN"]);
                vec![mark[0], mark[1], n]
            }
            _ => vec![],
        }
    }
}

#[cfg(test)]
mod tests {
    use super::*;

    #[test]
    fn the_published_generator() {
        let mut random = Random::new(1234567);
        assert_eq!(random.next(), 6457827717110365317);
        assert_eq!(random.next(), 3203168211198807973);
    }

    #[test]
    fn blocks_keep_the_list() {
        let mut random = Random::new(1);
        for n in 1..=32 {
            let list = random.processes(n, false);
            assert_eq!(random.blocks(&list).concat(), list);
        }
    }
}
