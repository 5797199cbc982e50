//! A model of explanations in wide integers: what an entry is made of, field by field as the scope lays the image out,
//! up to the first number that is outside 16 bits; as bytes and in words. It shares nothing with the library.
use crate::model::{self, field, fits, over, signed, word, Refused, ALPHA, K_TA, OFFSET};

/// The bytes of an explanation, and the numbers in it: 4 of what is explained, 7 of each part, 5 others.
pub const EXPLANATION: usize = 74;
pub const NUMBERS: u64 = 4 + 4 * 7 + 5;

/// Where a field stands: its name, its address, its highest and its lowest bit; and its scale.
type Field = (&'static str, usize, (u32, u32), i64);

/// The bits of number i of the four-bit fields, the lowest four first.
fn fourth(i: usize) -> (u32, u32) {
    let low = 4 * (i as u32 % 4);
    (low + 3, low)
}

/// The fields that make up a pixel of a table, in their order.
fn fields(image: &[u8], table: usize, pixel: usize) -> Vec<Field> {
    let (row, column) = (pixel / 32, pixel % 32);
    let own = 0x2440 + pixel;
    if table == K_TA {
        let average = if row % 2 == 0 { (15, 8) } else { (7, 0) };
        let scale = field(word(image, 0x2438), 3, 0);
        return vec![("average", 0x2436 + column % 2, average, 0), ("remainder", own, (3, 1), scale)];
    }
    let (start, remainder) = if table == OFFSET { (0x2410, (15, 10)) } else { (0x2420, (9, 4)) };
    let scale = |high: u32| field(word(image, start), high, high - 3);
    vec![
        ("average", start + 1, (15, 0), 0),
        ("row", start + 2 + row / 4, fourth(row), scale(11)),
        ("column", start + 8 + column / 4, fourth(column), scale(7)),
        ("remainder", own, remainder, scale(3)),
    ]
}

/// A field, what it holds, and the sum of all terms up to its own.
struct Line {
    name: &'static str,
    address: usize,
    bits: (u32, u32),
    raw: i64,
    value: i64,
    scale: i64,
    term: i64,
    sum: i64,
}

impl Line {
    /// The number by which an explanation names the term; the average, which always fits, has none.
    fn number(&self) -> u8 {
        ["average", "row", "column", "remainder"].iter().position(|name| *name == self.name).expect("a name") as u8
    }

    /// Where its part starts in an explanation's bytes. The sum with it follows, but for the average.
    fn place(&self) -> usize {
        [5, 18, 35, 52][usize::from(self.number())]
    }

    fn text(&self) -> String {
        let Line { name, address, bits: (high, low), raw, value, scale, term, .. } = self;
        let place = format!("{} address 0x{:04X} bits {}..{}", name, address, high, low);
        format!("{} raw {} value {} scale {} term {}", place, raw, value, scale, term)
    }
}

/// What must be explained.
pub struct Account {
    /// What the decoder answers for the image: 0, 3 or 4.
    number: u8,
    table: usize,
    pixel: usize,
    /// 0 nothing, 1 to 3 the term of the last line, 4 the final sum.
    failure: u8,
    lines: Vec<Line>,
    exponent: i64,
}

/// Writes a number in so many bytes.
fn put(bytes: &mut [u8], at: usize, width: usize, number: i64) {
    bytes[at..at + width].copy_from_slice(&number.to_be_bytes()[8 - width..]);
}

impl Account {
    /// Of an image, or a page, with its verdict: of the table and pixel that were asked for, or of those that it names.
    pub fn of(image: &[u8], verdict: Result<(), Refused>, asked: (usize, usize)) -> Account {
        let (number, table, pixel) = match verdict {
            Err(Refused { number, table, place }) => (number, usize::from(table), place as usize),
            Ok(()) => (0, asked.0, asked.1),
        };
        let exponent = match table {
            OFFSET => 0,
            ALPHA => model::alpha_scale(image),
            _ => model::k_ta_scale(image),
        };
        let mut account = Account { number, table, pixel, failure: 0, lines: Vec::new(), exponent };
        account.add_up(image);
        account
    }

    fn add_up(&mut self, image: &[u8]) {
        for (name, address, bits, scale) in fields(image, self.table, self.pixel) {
            let word = word(image, address);
            let (raw, value) = (field(word, bits.0, bits.1), signed(word, bits.0, bits.1));
            let term = value * 2i64.pow(scale as u32);
            let line = Line { name, address, bits, raw, value, scale, term, sum: self.sum() + term };
            if !fits(term) {
                self.failure = line.number();
            }
            self.lines.push(line);
            if self.failure != 0 {
                return;
            }
        }
        if self.table != ALPHA && !fits(self.sum()) {
            self.failure = 4;
        }
    }

    /// The sum of all lines.
    fn sum(&self) -> i64 {
        self.lines.last().map_or(0, |line| line.sum)
    }

    /// The decoder's number for it: a term that fails is 3, the sum 4.
    pub fn agrees(&self) -> bool {
        self.number == [0, 3, 3, 3, 4][usize::from(self.failure)]
    }

    fn entry(&self) -> i64 {
        match self.table {
            OFFSET => self.sum(),
            _ => i64::from(over(self.sum(), self.exponent).to_bits()),
        }
    }

    pub fn bytes(&self) -> [u8; EXPLANATION] {
        let mut bytes = [0; EXPLANATION];
        put(&mut bytes, 0, 1, self.number.into());
        put(&mut bytes, 1, 1, self.table as i64);
        put(&mut bytes, 2, 2, self.pixel as i64);
        put(&mut bytes, 4, 1, self.failure.into());
        for line in &self.lines {
            let at = line.place();
            let (high, low) = line.bits;
            put(&mut bytes, at, 2, line.address as i64);
            put(&mut bytes, at + 2, 1, high.into());
            put(&mut bytes, at + 3, 1, low.into());
            put(&mut bytes, at + 4, 2, line.raw);
            put(&mut bytes, at + 6, 2, line.value);
            put(&mut bytes, at + 8, 1, line.scale);
            put(&mut bytes, at + 9, 4, line.term);
            if line.number() > 0 && line.number() != self.failure {
                put(&mut bytes, at + 13, 4, line.sum);
            }
        }
        if self.table == K_TA {
            // No row and no column: the sums stay the average's.
            [31, 48].iter().for_each(|at| put(&mut bytes, *at, 4, self.lines[0].sum));
        }
        if self.failure == 0 {
            put(&mut bytes, 69, 1, self.exponent);
            put(&mut bytes, 70, 4, self.entry());
        }
        bytes
    }

    /// The text of it, line by line.
    pub fn text(&self) -> String {
        let mut lines = Vec::new();
        if self.number != 0 {
            lines.push(format!("refused {} {} {}", self.number, self.table, self.pixel));
        }
        lines.push(format!("table {}", ["offset", "alpha", "k_ta"][self.table]));
        lines.push(format!("pixel {} row {} column {}", self.pixel, self.pixel / 32, self.pixel % 32));
        for line in &self.lines {
            lines.push(line.text());
            if ["row", "column"].contains(&line.name) && line.number() != self.failure {
                lines.push(format!("after_{} {}", line.name, line.sum));
            }
        }
        match self.failure {
            0 => lines.extend([self.sum_text(), self.entry_text()]),
            4 => lines.extend([self.sum_text(), self.sum_outside()]),
            _ => lines.push(self.term_outside()),
        }
        lines.join("\n") + "\n"
    }

    fn sum_text(&self) -> String {
        let added = |line: &Line| match line.term {
            0.. => format!(" + {}", line.term),
            _ => format!(" - {}", -line.term),
        };
        let terms: String = self.lines[1..].iter().map(added).collect();
        format!("sum {}{} = {}", self.lines[0].term, terms, self.sum())
    }

    fn entry_text(&self) -> String {
        let entry = match self.table {
            OFFSET => self.entry().to_string(),
            _ => format!("{:08X}", self.entry()),
        };
        format!("numerator {}\nexponent {}\nentry {}", self.sum(), self.exponent, entry)
    }

    fn sum_outside(&self) -> String {
        let words: Vec<String> = self.lines.iter().map(|line| format!("0x{:04X}", line.address)).collect();
        let (last, others) = words.split_last().expect("an average at least");
        let way = match self.sum() {
            32768.. => format!("lower by {}", self.sum() - 32767),
            _ => format!("higher by {}", -32768 - self.sum()),
        };
        format!(
            "The final sum {} is outside -32768..32767. Its fields stand in words {} and {}; a sum {} would fit.",
            self.sum(),
            others.join(", "),
            last,
            way
        )
    }

    fn term_outside(&self) -> String {
        let Line { name, address, bits: (high, low), value, scale, term, .. } = self.lines.last().expect("a term");
        let power = 2i64.pow(*scale as u32);
        let holds = format!("Its field, bits {}..{} of word 0x{:04X}, holds {}", high, low, address, value);
        format!(
            "The {}'s term {} is outside -32768..32767. {}; at scale {} a field from {} to {} would fit.",
            name,
            term,
            holds,
            scale,
            -32768 / power,
            32767 / power
        )
    }
}
