/// The digits of each agent's number, eight bytes each, and how many of them count.
struct Numerals {
    bytes: Vec<[u8; 8]>,
    lengths: Vec<u8>,
}

impl Numerals {
    fn new(agents: usize) -> Numerals {
        let (mut bytes, mut lengths) = (Vec::with_capacity(agents), Vec::with_capacity(agents));
        for n in 0..agents {
            let digits = n.to_string();
            let mut eight = [0u8; 8];
            eight[..digits.len()].copy_from_slice(digits.as_bytes());
            bytes.push(eight);
            lengths.push(digits.len() as u8);
        }
        Numerals { bytes, lengths }
    }

    /// Puts a number on the page; behind its end the page may hold anything.
    fn put(&self, page: &mut [u8; PAGE], at: usize, n: usize) -> usize {
        page[at..at + 8].copy_from_slice(&self.bytes[n]);
        at + usize::from(self.lengths[n])
    }
}

/// The bytes of a page, and of the longest meeting line with room for the last eight bytes that are copied.
const PAGE: usize = 4096;
const LINE_ROOM: usize = 32;
