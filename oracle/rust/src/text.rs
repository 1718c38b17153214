//! Numbers and lines into a buffer of bytes.

pub struct Text(pub Vec<u8>);

impl Text {
    pub fn word(&mut self, text: &str) -> &mut Self {
        self.0.extend_from_slice(text.as_bytes());
        self
    }

    pub fn number(&mut self, mut n: u64) -> &mut Self {
        let mut digits = [0u8; 20];
        let mut at = 20;
        loop {
            at -= 1;
            digits[at] = b'0' + (n % 10) as u8;
            n /= 10;
            if n == 0 {
                break;
            }
        }
        self.0.extend_from_slice(&digits[at..]);
        self
    }

    pub fn signed(&mut self, n: i64) -> &mut Self {
        if n < 0 {
            self.word("-");
        }
        self.number(n.unsigned_abs())
    }

    /// FNV-1a over everything written.
    pub fn digest(&self) -> u64 {
        self.0.iter().fold(0xcbf29ce484222325, |hash: u64, byte| {
            (hash ^ *byte as u64).wrapping_mul(0x100000001b3)
        })
    }
}
