//! The digest over a sequence of words: docs/TRACES.md. It names nothing of the Rust, so that tests/host/archive has it too.

pub struct Digest(u64);

impl Digest {
    pub fn new() -> Self {
        Digest(0)
    }

    pub fn word(&mut self, word: u64) {
        let mut h = self.0 ^ word;
        h = h.wrapping_add(h << 10);
        h ^= h >> 6;
        h = h.wrapping_add(h << 3);
        h ^= h >> 11;
        self.0 = h;
    }

    pub fn value(self) -> u64 {
        self.0
    }

    pub fn words(&mut self, words: impl IntoIterator<Item = u64>) {
        words.into_iter().for_each(|word| self.word(word));
    }

    pub fn bytes(&mut self, bytes: &[u8]) {
        self.words(bytes.iter().map(|byte| *byte as u64));
    }

    pub fn flag(&mut self, flag: bool) {
        self.word(flag as u64);
    }
}

pub fn of_words(words: impl IntoIterator<Item = u64>) -> u64 {
    let mut digest = Digest::new();
    digest.words(words);
    digest.value()
}
