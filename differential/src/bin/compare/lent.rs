//! Buffers that are lent to the port.

/// So many bytes stand before a buffer at least, and so many behind it.
const GUARD: usize = 64;
/// A buffer starts up to so many bytes later, so that it is at any address.
pub const OFFSETS: usize = 8;

/// What stands in the guards. No byte is 0 or 255, and none is its neighbour.
const PATTERN: [u8; GUARD + OFFSETS] = pattern();

const fn pattern() -> [u8; GUARD + OFFSETS] {
    let mut pattern = [0; GUARD + OFFSETS];
    let mut place = 0;
    while place < pattern.len() {
        pattern[place] = (place * 37 % 251 + 3) as u8;
        place += 1;
    }
    pattern
}

/// What is around a buffer.
#[derive(Clone, Copy, PartialEq)]
pub enum Around {
    /// Guards, which show what is written outside.
    Guards,
    /// Nothing: the buffer is an allocation of its own, so that a tool which watches these, as
    /// valgrind does, sees also what is read outside.
    Nothing,
}

/// A place of a buffer that can be made wrong.
#[derive(Clone, Copy)]
pub enum Place {
    Before,
    Within,
    Behind,
}

/// A buffer, and what is around it.
pub struct Lent {
    around: Around,
    storage: Vec<u8>,
    start: usize,
    length: usize,
    null: bool,
}

impl Lent {
    pub fn new(around: Around) -> Self {
        Self {
            around,
            storage: Vec::new(),
            start: 0,
            length: 0,
            null: false,
        }
    }

    /// Makes it a buffer of these bytes, whose address is the offset's. Every second one without
    /// bytes is null.
    pub fn fill(&mut self, offset: usize, bytes: &[u8]) {
        self.length = bytes.len();
        self.null = bytes.is_empty() && offset % 2 == 1;
        match self.around {
            Around::Guards => {
                self.start = GUARD + offset;
                self.storage.clear();
                self.storage.extend_from_slice(&PATTERN[..self.start]);
                self.storage.extend_from_slice(bytes);
                self.storage.extend_from_slice(&PATTERN[..GUARD]);
            }
            Around::Nothing => {
                self.start = 0;
                self.storage = Vec::from(bytes);
            }
        }
    }

    /// Also where the port may only read, the pointer is one that may be written through: what is
    /// written there shall show, and not be undefined.
    pub fn pointer(&mut self) -> *mut u8 {
        if self.null {
            return std::ptr::null_mut();
        }
        self.storage[self.start..].as_mut_ptr()
    }

    pub fn length(&self) -> usize {
        self.length
    }

    pub fn bytes(&self) -> &[u8] {
        &self.storage[self.start..][..self.length]
    }

    /// What is wrong with it, if these bytes should be in it.
    pub fn fault(&self, expected: &[u8]) -> Option<String> {
        let behind = self.start + self.length;
        if self.storage[..self.start] != PATTERN[..self.start] {
            return Some("bytes before it were written".to_owned());
        }
        if self.storage[behind..] != PATTERN[..self.storage.len() - behind] {
            return Some("bytes behind it were written".to_owned());
        }
        let bytes = self.bytes();
        if bytes == expected {
            return None;
        }
        let place = (0..bytes.len()).find(|place| bytes[*place] != expected[*place]);
        let place = place.expect("the lengths are the same");
        Some(format!(
            "byte {place} is {} and should be {}",
            bytes[place], expected[place]
        ))
    }

    /// Flips a bit, so that it is seen whether this is noticed.
    pub fn damage(&mut self, place: Place) {
        let place = match place {
            Place::Before => self.start - 1,
            Place::Within => self.start + self.length / 2,
            Place::Behind => self.start + self.length,
        };
        self.storage[place] ^= 1;
    }
}
