//! Random inputs of a listing: sets of all kinds, and inputs out of form in one place or many.

/// The largest size and total.
const LIMIT: u64 = 281_474_976_710_655;

/// A source of inputs, splitmix64 at its heart.
pub struct Inputs {
    state: u64,
}

impl Inputs {
    pub fn new(seed: u64) -> Self {
        Self { state: seed }
    }

    /// The input at a place: the first few are the corners, the others random.
    pub fn next(&mut self, place: usize) -> Vec<u8> {
        match place {
            0 => Vec::new(),
            1 => b"\n".to_vec(),
            2 => vec![b' '; 65_536],
            3 => vec![b'\n'; 65_537],
            4 => self.many_files(400, 0),
            5 => self.many_files(401, 0),
            6 => self.many_files(200, 16),
            7 => self.many_files(201, 16),
            8 => self.long_input(65_536),
            9 => self.long_input(65_537),
            _ => self.random_input(),
        }
    }

    fn number(&mut self) -> u64 {
        self.state = self.state.wrapping_add(0x9E37_79B9_7F4A_7C15);
        let mut z = self.state;
        z = (z ^ (z >> 30)).wrapping_mul(0xBF58_476D_1CE4_E5B9);
        z = (z ^ (z >> 27)).wrapping_mul(0x94D0_49BB_1331_11EB);
        z ^ (z >> 31)
    }

    fn below(&mut self, n: u64) -> u64 {
        self.number() % n
    }

    fn once_in(&mut self, n: u64) -> bool {
        self.below(n) == 0
    }

    /// As many files as asked, of one byte each.
    fn many_files(&mut self, files: usize, flags: u8) -> Vec<u8> {
        let mut input = format!("{:>10}\n", 16_384).into_bytes();
        for place in 0..files {
            input.extend_from_slice(format!("{:>15} {flags:>2} s/d{}/{place}\n", 1, place % 7).as_bytes());
        }
        input
    }

    /// An input of exactly so many bytes, one file with a long path that is absolute, so that its leaf may be short.
    fn long_input(&mut self, length: usize) -> Vec<u8> {
        let mut input = format!("{:>10}\n{:>15} {:>2} /", 10, 5, 0).into_bytes();
        while input.len() + 2 < length {
            input.extend_from_slice(if input.len() % 64 == 0 { b"/" } else { b"x" });
        }
        input.extend_from_slice(b"/y");
        input.truncate(length);
        input
    }

    /// A random set, plain or with odd files, and often spoilt in some byte.
    fn random_input(&mut self) -> Vec<u8> {
        let is_plain = self.once_in(2);
        let length = if is_plain { 1 + self.below(40_000) } else { self.length() };
        let mut input = format!("{length:>10}\n").into_bytes();
        let is_v2 = self.once_in(2);
        for place in 0..self.below(12) {
            let (size, flags) = if is_plain {
                (self.below(3) * self.below(100_000), if is_v2 { 16 } else { 0 } + self.below(8))
            } else {
                (self.size(length), self.flags(is_v2))
            };
            input.extend_from_slice(format!("{size:>15} {flags:>2} ").as_bytes());
            if is_plain && place > 0 {
                self.usual_path(&mut input)
            } else {
                self.path(&mut input)
            }
            input.push(b'\n');
        }
        if self.once_in(4) {
            input.pop();
        }
        if self.once_in(if is_plain { 9 } else { 3 }) {
            self.spoil(&mut input);
        }
        input
    }

    fn length(&mut self) -> u64 {
        match self.below(12) {
            0 => 0,
            1 => 1,
            2 => 2_147_483_647,
            3 => self.below(5_000_000_000),
            4 | 5 => 1 + self.below(20),
            _ => 16_384 << self.below(4),
        }
    }

    fn size(&mut self, length: u64) -> u64 {
        match self.below(16) {
            0 | 1 => 0,
            2 => LIMIT - self.below(3),
            3 => LIMIT + self.below(3),
            4 => 999_999_999_999_999,
            5 => length.wrapping_mul(self.below(4)).wrapping_sub(self.below(2)) % 1_000_000_000_000,
            6 => self.below(1 << 40),
            _ => self.below(100_000),
        }
    }

    fn flags(&mut self, is_v2: bool) -> u64 {
        let kind = if is_v2 { 16 } else { 0 };
        match self.below(20) {
            0 => self.below(32),
            1 => self.below(100),
            2 | 3 => kind + self.below(8),
            4 => (16 - kind) + self.below(8),
            _ => kind,
        }
    }

    fn path(&mut self, input: &mut Vec<u8>) {
        match self.below(12) {
            0 => {}
            1 => input.extend_from_slice(b"single"),
            2 => input.extend_from_slice(b"/absolute/path"),
            3 => {
                for _ in 0..self.below(9) {
                    let byte = b"s/.\\a/ \r%\xff"[self.below(10) as usize];
                    input.push(byte);
                }
            }
            4 => {
                input.extend_from_slice(b"s/");
                let longest = 4_090 + self.below(10);
                input.extend((0..longest).map(|_| b'n'));
            }
            _ => self.usual_path(input),
        }
    }

    fn usual_path(&mut self, input: &mut Vec<u8>) {
        let directory = self.below(4);
        let name = self.below(1_000);
        let text = if directory == 0 { format!("s/{name}") } else { format!("s/d{directory}/{name}.wav") };
        input.extend_from_slice(text.as_bytes());
    }

    /// Changes, removes or inserts a byte, or cuts the input.
    fn spoil(&mut self, input: &mut Vec<u8>) {
        if input.is_empty() {
            return;
        }
        let place = self.below(input.len() as u64) as usize;
        match self.below(5) {
            0 => input[place] = self.below(256) as u8,
            1 => input[place] = b" 0123456789-+\n"[self.below(14) as usize],
            2 => {
                input.remove(place);
            }
            3 => input.insert(place, b" 0\n"[self.below(3) as usize]),
            _ => input.truncate(place),
        }
    }
}
