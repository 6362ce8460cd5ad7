//! Lines that are no operation, each wrong in one place.

use crate::{Writer, line};
use machine::LONGEST_LINE;

impl Writer {
    /// A well-formed line of some operation, whatever its fields say.
    fn plausible(&mut self) -> Vec<u8> {
        let number = self.chance.below(3);
        let text = match self.chance.below(8) {
            0 => line(0x02, &[]),
            1 => line(0x01, &[self.chance.next()]),
            2 => line(0x12, &[number]),
            3 => line(0x13, &[number, self.chance.below(14), self.chance.below(300), 0]),
            4 => line(0x24, &[number, self.chance.below(9), 0, 0xabcdef]),
            5 => line(0x20, &[1, 0, 0, 0, 0, 0, 0, 0xabcdef]),
            6 => line(0x29, &[0, 2, 0xa, 0xb]),
            _ => line(0x11, &[number, self.chance.below(4)]),
        };
        text.into_bytes()
    }

    /// A line whose text is wrong in one place.
    pub fn spoiled(&mut self) {
        let mut text = self.plausible();
        let place = self.chance.below(text.len() as u64) as usize;
        match self.chance.below(20) {
            0 => text.clear(),
            1 => text.push(b' '),
            2 => text.push(b'\r'),
            3 => text.insert(0, b' '),
            4 => text.insert(place, b' '),
            5 => text[place] = b'\t',
            6 => text[place] = 0,
            7 => text[place] = 0x80 | self.chance.below(128) as u8,
            8 => text.make_ascii_uppercase(),
            9 => {
                text[place] =
                    self.chance.of(&[b'g', b'/', b':', b'@', b'`', b'A', b'F', b'x', b'-', b'+'].map(u64::from)) as u8
            }
            10 => text.truncate(place),
            11 => drop(text.remove(place)),
            12 => text.insert(place, b'0'),
            13 => text.extend(b" 0000000000000000"),
            14 => text.extend(b"0000000000000000"),
            15 => text.truncate(text.len().saturating_sub(17)),
            16 => text = vec![b'0'; LONGEST_LINE - 1 + self.chance.below(3) as usize],
            17 => text = text.repeat(1 + self.chance.below(200) as usize),
            18 => text[place] = if text[place] == b' ' { b'0' } else { b' ' },
            _ => {
                let code = self.chance.below(256);
                text.splice(..2, format!("{code:02x}").into_bytes());
            }
        }
        self.put(&text);
    }

    /// A line with a field out of its range, or `00` out of its place.
    pub fn out_of_range(&mut self) {
        let bad = match self.chance.below(3) {
            0 => 2,
            1 => 1 << 32,
            _ => self.edge().max(2),
        };
        let large = self.edge().max(1 << 32);
        // 18 comes before 16, so the instance may be unknown
        let number = self.chance.of(&[0, 0, 9, u64::MAX]);
        match self.chance.below(22) {
            0 => self.say(0x00, &[1, 64]),
            1 => self.say(0x04, &[bad.max(17), 0]),
            2 => self.say(0x04, &[1, 3 << 60]),
            3 => self.say(0x04, &[2, 1 << 52]),
            4 => self.say(0x10, &[1, bad, 0, 0, 0, 0]),
            5 => self.say(0x10, &[1, 0, bad, 0, 0, 0]),
            6 => self.say(0x10, &[1, 0, 0, 0, bad, 0]),
            7 => self.say(0x10, &[1, 0, 0, 0, 0, bad.max(256)]),
            8 => self.say(0x13, &[number, bad.max(14), 0, 0]),
            9 => self.say(0x14, &[number, bad.max(9), 0, 0, 0]),
            10 => {
                let kind = self.chance.of(&[0, 2, 4, 5]);
                self.say(0x14, &[number, kind, 0, 0, large])
            }
            11 => self.say(0x20, &[1, bad, 0, 0, 0, 0, 0, 0]),
            12 => self.say(0x20, &[1, 0, 0, 0, 0, bad, 0, 0]),
            13 => self.say(0x20, &[1, 0, bad, 0, 0, 0, 0, 0]),
            14 => self.say(0x20, &[1, 0, 0, 0, 0, 0, bad, 0]),
            15 => self.say(0x21, &[number, 0, bad, 0]),
            16 => self.say(0x25, &[number, 0, bad, 0, 0]),
            17 => self.say(0x27, &[number, 0, 0, large, 0]),
            18 => self.say(0x27, &[0, number, 0, 0, large]),
            19 => self.say(0x24, &[number, 0, bad, 0]),
            20 => self.say(0x30, &[number, 0, 0, 0, bad, 0]),
            _ => {
                let items = self.chance.below(6) as usize;
                let count = self.chance.of(&[0, 1, 2, 3, 4, 5, 6, 1 << 32]);
                self.say(0x29, &[&[0, count], &[7; 6][..items]].concat())
            }
        }
    }
}
