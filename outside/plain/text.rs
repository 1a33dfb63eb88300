//! Printed lines, written into one buffer that is used again for each group (docs/FORMATS.md, "Printed lines").

use crate::values::{Link, Name, Pid};

/// The digits of each number below 1,000, from the left, and behind them how many they are.
static DIGITS: [[u8; 4]; 1000] = {
    let mut table = [[0; 4]; 1000];
    let mut number = 0;
    while number < 1000 {
        let [a, b, c] = [number / 100, number / 10 % 10, number % 10];
        let [a, b, c] = [b'0' + a as u8, b'0' + b as u8, b'0' + c as u8];
        table[number] = match number {
            0..=9 => [c, 0, 0, 1],
            10..=99 => [b, c, 0, 2],
            _ => [a, b, c, 3],
        };
        number += 1;
    }
    table
};

/// The lines of a group. A line begins with `begin`, goes on with words, each with a blank before it, and ends with `end`.
pub struct Text {
    pub bytes: Vec<u8>,
}

impl Text {
    pub fn new() -> Text {
        Text { bytes: Vec::with_capacity(4096) }
    }

    pub fn begin(&mut self, word: &str) -> &mut Text {
        self.bytes.extend_from_slice(word.as_bytes());
        self
    }

    pub fn end(&mut self) {
        self.bytes.push(b'\n');
    }

    pub fn word(&mut self, word: &str) -> &mut Text {
        self.bytes.push(b' ');
        self.begin(word)
    }

    pub fn number(&mut self, number: impl Into<u64>) -> &mut Text {
        self.bytes.push(b' ');
        self.digits(number.into());
        self
    }

    pub fn pid(&mut self, pid: Pid) -> &mut Text {
        self.bytes.push(b' ');
        self.bare_pid(pid);
        self
    }

    pub fn name(&mut self, name: Name) -> &mut Text {
        self.pid(name.sender);
        self.bytes.push(b'#');
        self.digits(name.count.into());
        if name.answers {
            self.bytes.push(b'!');
        }
        self
    }

    pub fn link(&mut self, link: &Link) -> &mut Text {
        let rights = match (link.read, link.write) {
            (true, true) => "rw",
            (true, false) => "r",
            (false, true) => "w",
            (false, false) => "-",
        };
        self.word(if link.reply { "reply" } else { "general" }).pid(link.address.pid);
        self.word("at").number(link.address.at).word("moves").number(link.address.moves);
        self.word("code").number(link.code).word("channel").number(link.channel);
        self.word("area").number(link.base).number(link.length).word(rights)
    }

    pub fn hex(&mut self, bytes: &[u8]) -> &mut Text {
        const DIGITS: &[u8; 16] = b"0123456789abcdef";
        self.bytes.push(b' ');
        for byte in bytes {
            self.bytes.extend_from_slice(&[DIGITS[(byte >> 4) as usize], DIGITS[(byte & 15) as usize]]);
        }
        self
    }

    fn bare_pid(&mut self, pid: Pid) {
        self.digits(pid.home.into());
        self.bytes.push(b'.');
        self.digits(pid.number.into());
    }

    fn digits(&mut self, number: u64) {
        match DIGITS.get(number as usize) {
            Some(digits) => {
                self.bytes.extend_from_slice(digits);
                self.bytes.truncate(self.bytes.len() - 4 + digits[3] as usize);
            }
            None => self.many_digits(number),
        }
    }

    #[inline(never)]
    fn many_digits(&mut self, mut number: u64) {
        let mut digits = [0; 20];
        let mut from = digits.len();
        while number > 0 {
            from -= 1;
            digits[from] = b'0' + (number % 10) as u8;
            number /= 10;
        }
        self.bytes.extend_from_slice(&digits[from..]);
    }
}
