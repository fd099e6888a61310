//! Streams of 4.3 of 002: a reader of every mode, a writer of byte mode.

use crate::bits::Bits;

/// Why a stream is refused.
#[derive(Clone, Copy, Debug, PartialEq, Eq)]
pub enum Fault {
    /// A code 4.3 does not define, or a stream that ends inside one.
    Undefined,
    /// ECI or FNC1.
    Unsupported,
}

impl Fault {
    pub fn number(self) -> u32 {
        match self {
            Fault::Undefined => 12,
            Fault::Unsupported => 13,
        }
    }
}

/// The modes of Table 12.
#[derive(Clone, Copy, PartialEq, Eq)]
enum Mode {
    Uppercase,
    Lowercase,
    Numeric,
    Punctuation,
    Mixed,
    Alphanumeric,
}

const UPPERCASE: &str = " ABCDEFGHIJKLMNOPQRSTUVWXYZ";
const LOWERCASE: &str = " abcdefghijklmnopqrstuvwxyz";
const NUMERIC: &str = " 0123456789,.";
const PUNCTUATION: &str = "!\"$%&'(),-./:;?@";
const ALPHANUMERIC: &str = " 0123456789ABCDEFGHIJKLMNOPQRSTUVWXYZabcdefghijklmnopqrstuvwxyz";

/// Kept apart, because some values stand for two characters.
const MIXED: [&str; 32] = [
    "#", "*", "+", "<", "=", ">", "[", "\\", "]", "^", "_", "`", "{", "|", "}", "~", "\t", "\n",
    "\r", "\n\r", ", ", ". ", ": ", "€", "§", "Ä", "Ö", "Ü", "ß", "ä", "ö", "ü",
];

impl Mode {
    /// Bits of a code.
    fn width(self) -> usize {
        match self {
            Mode::Numeric | Mode::Punctuation => 4,
            Mode::Uppercase | Mode::Lowercase | Mode::Mixed => 5,
            Mode::Alphanumeric => 6,
        }
    }

    /// What a value stands for, if it is a character of the mode.
    fn character(self, value: usize) -> Option<&'static str> {
        match self {
            Mode::Uppercase => UPPERCASE.get(value..=value),
            Mode::Lowercase => LOWERCASE.get(value..=value),
            Mode::Numeric => NUMERIC.get(value..=value),
            Mode::Punctuation => PUNCTUATION.get(value..=value),
            Mode::Mixed => MIXED.get(value).copied(),
            Mode::Alphanumeric => ALPHANUMERIC.get(value..=value),
        }
    }

    /// The switch of Tables 13 to 16 a value stands for, none being the
    /// extended one.
    fn direct_switch(self, value: usize) -> Option<Switch> {
        match (self, value) {
            (Mode::Uppercase | Mode::Lowercase, 27) | (Mode::Numeric, 13) => {
                Some(Switch::Shift(Mode::Punctuation))
            }
            (Mode::Uppercase, 28) => Some(Switch::Latch(Mode::Lowercase)),
            (Mode::Lowercase, 28) => Some(Switch::Shift(Mode::Uppercase)),
            (Mode::Uppercase | Mode::Lowercase, 29) => Some(Switch::Latch(Mode::Numeric)),
            (Mode::Uppercase | Mode::Lowercase, 30) => Some(Switch::Latch(Mode::Alphanumeric)),
            (Mode::Numeric, 14) => Some(Switch::Latch(Mode::Uppercase)),
            _ => None,
        }
    }

    /// The extended switch the two appended bits stand for.
    fn extended_switch(self, appended: usize) -> Switch {
        match (self, appended) {
            (_, 0) => Switch::Bytes,
            (_, 1) => Switch::Shift(Mode::Mixed),
            (Mode::Lowercase, 2) => Switch::Latch(Mode::Uppercase),
            (Mode::Lowercase, _) => Switch::EndOfMessage,
            (Mode::Numeric, 2) => Switch::Shift(Mode::Uppercase),
            (Mode::Numeric, _) => Switch::Latch(Mode::Lowercase),
            (Mode::Alphanumeric, 2) => Switch::Shift(Mode::Punctuation),
            (Mode::Alphanumeric, _) => Switch::Latch(Mode::Uppercase),
            _ => Switch::EciOrFnc1,
        }
    }
}

enum Switch {
    Latch(Mode),
    Shift(Mode),
    Bytes,
    EndOfMessage,
    EciOrFnc1,
}

struct Reader<'a> {
    bits: &'a Bits,
    next: usize,
    message: Vec<u8>,
}

impl Reader<'_> {
    fn at_end(&self) -> bool {
        self.next == self.bits.len()
    }

    fn number(&mut self, count: usize) -> Result<usize, Fault> {
        if self.bits.len() - self.next < count {
            return Err(Fault::Undefined);
        }
        let range = self.next..self.next + count;
        self.next += count;
        Ok(range.fold(0, |number, index| {
            number << 1 | usize::from(self.bits.get(index))
        }))
    }

    /// A code of a latched mode: a character is taken, a switch handed back.
    fn code(&mut self, mode: Mode) -> Result<Option<Switch>, Fault> {
        let value = self.number(mode.width())?;
        if let Some(character) = mode.character(value) {
            self.message.extend_from_slice(character.as_bytes());
            return Ok(None);
        }
        match mode.direct_switch(value) {
            Some(switch) => Ok(Some(switch)),
            None => Ok(Some(mode.extended_switch(self.number(2)?))),
        }
    }

    /// The character owed after a shift; a switch there is undefined.
    fn shifted(&mut self, mode: Mode) -> Result<(), Fault> {
        let value = self.number(mode.width())?;
        let character = mode.character(value).ok_or(Fault::Undefined)?;
        self.message.extend_from_slice(character.as_bytes());
        Ok(())
    }

    fn bytes(&mut self) -> Result<(), Fault> {
        let count = match self.number(4)? {
            0 => self.number(13)? + 15,
            short => short,
        };
        for _ in 0..count {
            let byte = self.number(8)?;
            self.message.push(byte as u8);
        }
        Ok(())
    }
}

/// The message of a stream.
pub fn read(bits: &Bits) -> Result<Vec<u8>, Fault> {
    let mut reader = Reader {
        bits,
        next: 0,
        message: Vec::new(),
    };
    let mut mode = Mode::Uppercase;
    while !reader.at_end() {
        match reader.code(mode)? {
            None => {}
            Some(Switch::Latch(next)) => mode = next,
            Some(Switch::Shift(next)) => reader.shifted(next)?,
            Some(Switch::Bytes) => reader.bytes()?,
            Some(Switch::EndOfMessage) => break,
            Some(Switch::EciOrFnc1) => return Err(Fault::Unsupported),
        }
    }
    Ok(reader.message)
}

/// The greatest number of bytes of a run, by its 13-bit count.
const LONGEST_RUN: usize = 15 + 8_191;

/// Bits of the switch and the count in front of a run's bytes.
fn head_length(run: usize) -> usize {
    if run <= 15 {
        7 + 4
    } else {
        7 + 4 + 13
    }
}

/// The length of the stream of a message.
pub fn length(bytes: usize) -> usize {
    let (full, last) = (bytes / LONGEST_RUN, bytes % LONGEST_RUN);
    let last_head = if last == 0 { 0 } else { head_length(last) };
    bytes
        .saturating_mul(8)
        .saturating_add(full * head_length(LONGEST_RUN) + last_head)
}

/// The bytes of the longest message whose stream and end mark fit in the net
/// bits.
pub fn longest(net: usize) -> usize {
    (0..net)
        .take_while(|&bytes| length(bytes) < net)
        .last()
        .unwrap_or(0)
}

/// A switch with two bits appended: its value and its width.
pub const fn extended(value: u32, width: usize, appended: u32) -> (u32, usize) {
    (value << 2 | appended, width + 2)
}

/// The stream of a message: uppercase mode shifts to byte mode for each run.
pub fn write(message: &[u8]) -> Bits {
    let mut bits = Bits::new();
    for run in message.chunks(LONGEST_RUN) {
        bits.push_text("11111 00");
        if run.len() <= 15 {
            bits.push_number(run.len() as u32, 4);
        } else {
            bits.push_number(0, 4);
            bits.push_number(run.len() as u32 - 15, 13);
        }
        for &byte in run {
            bits.push_number(byte.into(), 8);
        }
    }
    bits
}

/// The stream in net bits, which an end mark 1 and zeros follow; none if they
/// are all 0.
pub fn without_end_mark(net: &Bits) -> Option<Bits> {
    let end = net.last_one()?;
    let mut stream = net.clone();
    stream.truncate(end);
    Some(stream)
}

/// Net bits of a stream, which must be shorter than they are.
pub fn with_end_mark(stream: &Bits, net: usize) -> Bits {
    assert!(stream.len() < net);
    let mut bits = stream.clone();
    bits.push(true);
    bits.append(&Bits::zeros(net - bits.len()));
    bits
}

#[cfg(test)]
mod tests {
    use super::*;

    fn bits(text: &str) -> Bits {
        let mut bits = Bits::new();
        bits.push_text(text);
        bits
    }

    fn message(text: &str) -> Result<String, Fault> {
        read(&bits(text)).map(|message| String::from_utf8(message).unwrap())
    }

    const BEFORE_THE_LAST_DIGIT: &str = "01010 00001 00010 00000 00011 11100 01111 00100 00101 \
        11101 0000 0011 0001 0010";

    #[test]
    fn table_22() {
        let printed = format!("{BEFORE_THE_LAST_DIGIT} 0101 1101 0000");
        assert_eq!(bits(&printed).len(), 78);
        assert_eq!(message(&printed).unwrap(), "JAB Code 2014!");
        let meant = format!("{BEFORE_THE_LAST_DIGIT} 0111 1101 0000");
        assert_eq!(message(&meant).unwrap(), "JAB Code 2016!");
    }

    #[test]
    fn p12() {
        assert_eq!(without_end_mark(&bits("10100")), Some(bits("10")));
        assert_eq!(without_end_mark(&bits("10000")), Some(bits("")));
        assert_eq!(without_end_mark(&bits("00000")), None);
        assert_eq!(with_end_mark(&bits("10"), 5), bits("10100"));
        assert_eq!(with_end_mark(&bits(""), 5), bits("10000"));
    }

    #[test]
    fn the_columns_of_table_12_have_their_lengths() {
        assert_eq!(UPPERCASE.len(), 27);
        assert_eq!(LOWERCASE.len(), 27);
        assert_eq!(NUMERIC.len(), 13);
        assert_eq!(PUNCTUATION.len(), 16);
        assert_eq!(ALPHANUMERIC.len(), 63);
        assert_eq!(Mode::Punctuation.character(10), Some("."));
        assert_eq!(Mode::Mixed.character(13), Some("|"));
        assert_eq!(Mode::Alphanumeric.character(32), Some("V"));
        assert_eq!(Mode::Alphanumeric.character(37), Some("a"));
        assert_eq!(Mode::Numeric.character(12), Some("."));
    }

    #[test]
    fn mixed_characters() {
        let mut stream = Bits::new();
        for value in [19, 20, 23, 24, 31] {
            stream.push_text("11111 01");
            stream.push_number(value, 5);
        }
        let expected = [10, 13, 44, 32, 0xE2, 0x82, 0xAC, 0xC2, 0xA7, 0xC3, 0xBC];
        assert_eq!(read(&stream).unwrap(), expected);
    }

    #[test]
    fn switches() {
        // Upper: P/S, L/L; lower: P/S, U/S, latch to upper; N/L.
        let text = "11011 0000 11100 00001 11011 1111 11100 00010 00011 1111110 00100 11101 0010";
        assert_eq!(message(text).unwrap(), "!a@BcD1");
        // Numeric: P/S, shift to upper, latch to lower; lower A/L.
        let text = "11101 1101 0001 111110 00001 0001 111111 00001 11110 001011";
        assert_eq!(message(text).unwrap(), "\"A0aA");
        // Alphanumeric: shift to punctuation and mixed, latch to upper; numeric U/L.
        let text = "11110 111111 10 0010 111111 01 00000 111111 11 00001 11101 1110 00010";
        assert_eq!(message(text).unwrap(), "$#AB");
    }

    #[test]
    fn ends_and_refusals() {
        assert_eq!(message("").unwrap(), "");
        assert_eq!(message("11100").unwrap(), "");
        assert_eq!(message("11100 1111111 11111 1").unwrap(), "");
        assert_eq!(message("11111 10"), Err(Fault::Unsupported));
        assert_eq!(message("11111 11"), Err(Fault::Unsupported));
        for text in [
            "0",
            "0000",
            "11011",
            "11011 000",
            "11111",
            "11111 1",
            "11111 01",
            "11111 00",
            "11111 00 000",
            "11111 00 0000",
            "11111 00 0000 0000 0000 0000",
            "11111 00 0001",
            "11111 00 0001 0000000",
            "11100 11100",
            "11100 11100 11011 0000",
            "11100 11100 11111 10",
            "11101 111110 11111",
        ] {
            assert_eq!(message(text), Err(Fault::Undefined), "{text}");
        }
    }

    #[test]
    fn fifteen_bytes_in_either_form() {
        let bytes = "01000001".repeat(15);
        let short = message(&format!("1111100 1111 {bytes}")).unwrap();
        let long = message(&format!("1111100 0000 0000000000000 {bytes}")).unwrap();
        assert_eq!(short, "A".repeat(15));
        assert_eq!(short, long);
    }

    #[test]
    fn written_streams_have_their_length_and_read_back() {
        for count in [0, 1, 14, 15, 16, 17, 8_206, 8_207, 8_222, 20_000] {
            let message: Vec<u8> = (0..count).map(|i| (i * 7 % 256) as u8).collect();
            let stream = write(&message);
            assert_eq!(stream.len(), length(count));
            assert_eq!(read(&stream).unwrap(), message);
        }
    }
}
