//! Images of several kinds. The same seed gives the same images.

/// A small generator of numbers (splitmix64).
#[derive(Clone)]
pub struct Numbers(u64);

impl Numbers {
    pub fn new(seed: u64) -> Self {
        Self(seed)
    }

    pub fn any(&mut self) -> u64 {
        self.0 = self.0.wrapping_add(0x9E37_79B9_7F4A_7C15);
        let mut z = self.0;
        z = (z ^ (z >> 30)).wrapping_mul(0xBF58_476D_1CE4_E5B9);
        z = (z ^ (z >> 27)).wrapping_mul(0x94D0_49BB_1331_11EB);
        z ^ (z >> 31)
    }

    /// A number below a bound.
    pub fn below(&mut self, bound: u64) -> u64 {
        self.any() % bound
    }

    pub fn word(&mut self) -> u16 {
        self.any() as u16
    }
}

pub type Image = [u8; 1664];

pub fn set(image: &mut [u8], address: usize, word: u16) {
    image[2 * (address - 0x2400)..][..2].copy_from_slice(&word.to_be_bytes());
}

pub fn get(image: &[u8], address: usize) -> u16 {
    let at = 2 * (address - 0x2400);
    u16::from_be_bytes([image[at], image[at + 1]])
}

/// The zero image with some words set.
pub fn with(words: &[(usize, u16)]) -> Image {
    let mut image = [0u8; 1664];
    for (address, word) in words {
        set(&mut image, *address, *word);
    }
    image
}

/// Some words of a plausible camera: those of the datasheet's worked example, with rows, columns and remainders made up.
pub fn lifelike(seed: u64) -> Image {
    let mut numbers = Numbers::new(seed);
    let mut image = [0u8; 1664];
    for address in 0x2400..0x2410 {
        set(&mut image, address, numbers.word());
    }
    for address in (0x2412..0x2420).chain(0x2422..0x2430) {
        set(&mut image, address, numbers.word());
    }
    for (address, word) in [
        (0x2410, 0x4210),
        (0x2411, 0xFFBB),
        (0x2420, 0x79A6),
        (0x2421, 0x2F44),
        (0x2430, 0x18EF),
        (0x2431, 0x2FF1),
        (0x2432, 0x5952),
        (0x2433, 0x9D68),
        (0x2434, 0x5454),
        (0x2435, 0x0841),
        (0x2436, 0x5354),
        (0x2437, 0x5152),
        (0x2438, 0x2363),
        (0x2439, 0xE446),
        (0x243A, 0xFBB5),
        (0x243B, 0x044B),
        (0x243C, 0xF020),
        (0x243D, 0x9797),
        (0x243E, 0x9797),
        (0x243F, 0x2889),
    ] {
        set(&mut image, address, word);
    }
    // Row and column terms of the alpha table stay inside 16 bits: 0x79A6 scales them by 2^9 and 2^10.
    for address in 0x2440..0x2740 {
        let offset = (numbers.below(17) as i32 - 8) & 0x3F;
        let alpha = (numbers.below(25) as i32 - 12) & 0x3F;
        let k_ta = (numbers.below(5) as i32 - 2) & 0x7;
        set(&mut image, address, (offset << 10 | alpha << 4 | k_ta << 1) as u16);
    }
    image
}

/// Every word anything.
pub fn wild(numbers: &mut Numbers) -> Image {
    let mut image = [0u8; 1664];
    for address in 0x2400..0x2740 {
        set(&mut image, address, numbers.word());
    }
    image
}

/// Every word anything, but the scales and averages small enough for most images to be accepted.
pub fn tame(numbers: &mut Numbers) -> Image {
    let mut image = wild(numbers);
    for start in [0x2410, 0x2420] {
        let scale = numbers.below(16) << 12 | numbers.below(12) << 8 | numbers.below(12) << 4 | numbers.below(10);
        set(&mut image, start, scale as u16);
        let average = numbers.below(16384) as i32 - 8192;
        set(&mut image, start + 1, average as u16);
    }
    let w = numbers.any() as u16 & 0xFFF0 | numbers.below(13) as u16;
    set(&mut image, 0x2438, w);
    image
}

/// Averages, scales and fields chosen so that terms and sums come close to the limits, on either side of them.
pub fn near(numbers: &mut Numbers) -> Image {
    let mut image = [0u8; 1664];
    for address in 0x2430..0x2440 {
        set(&mut image, address, numbers.word());
    }
    for start in [0x2410, 0x2420] {
        let scale = |numbers: &mut Numbers| match numbers.below(4) {
            0 => 12,
            1 => 13,
            _ => numbers.below(14),
        };
        let (row, column, remainder) = (scale(numbers), scale(numbers), numbers.below(12));
        set(&mut image, start, (numbers.below(16) << 12 | row << 8 | column << 4 | remainder) as u16);
        let reach = 1i64 << numbers.below(14);
        let inside = numbers.below(reach as u64) as i64;
        let average = match numbers.below(4) {
            0 => 32767 - inside,
            1 => -32768 + inside,
            _ => numbers.below(65536) as i64 - 32768,
        };
        set(&mut image, start + 1, average as u16);
        // Few fields are set, so that the walk gets far.
        for _ in 0..numbers.below(5) {
            let address = start + 2 + numbers.below(14) as usize;
            let nibble = 4 * numbers.below(4);
            let field = match numbers.below(3) {
                0 => 0xF,
                1 => 0x1,
                _ => numbers.below(16),
            };
            let word = get(&image, address) | (field << nibble) as u16;
            set(&mut image, address, word);
        }
    }
    let w = numbers.any() as u16 & 0xFFF0 | (10 + numbers.below(5)) as u16;
    set(&mut image, 0x2438, w);
    let dense = numbers.below(3) == 0;
    let pixels = if dense { 768 } else { numbers.below(8) };
    for i in 0..pixels {
        let pixel = if dense { i } else { numbers.below(768) };
        let word = match numbers.below(4) {
            0 => numbers.word(),
            1 => numbers.word() & 0xFC00,
            2 => numbers.word() & 0x03F1,
            _ => numbers.word() & 0x000F,
        };
        set(&mut image, 0x2440 + pixel as usize, word);
    }
    image
}

/// Zero but for a few words.
pub fn sparse(numbers: &mut Numbers) -> Image {
    let mut image = [0u8; 1664];
    for _ in 0..1 + numbers.below(6) {
        let address = match numbers.below(4) {
            0 => 0x2440 + numbers.below(768) as usize,
            _ => 0x2410 + numbers.below(48) as usize,
        };
        set(&mut image, address, numbers.word());
    }
    image
}

/// A lifelike image with some damage, of any length.
pub fn damaged(numbers: &mut Numbers) -> Vec<u8> {
    let mut image = lifelike(numbers.any()).to_vec();
    for _ in 0..1 + numbers.below(4) {
        let len = image.len() as u64;
        match numbers.below(7) {
            // A flipped bit, more often in the words that matter most.
            0 if len > 128 => {
                let at = 32 + numbers.below(96) as usize;
                image[at] ^= 1 << numbers.below(8);
            }
            0 | 1 if len > 0 => {
                let at = numbers.below(len) as usize;
                image[at] ^= 1 << numbers.below(8);
            }
            2 if len > 0 => {
                let at = numbers.below(len) as usize;
                image[at] = numbers.word() as u8;
            }
            // A lost byte, a doubled one: everything after it is shifted.
            3 if len > 0 => {
                image.remove(numbers.below(len) as usize);
            }
            4 if len > 0 => {
                let at = numbers.below(len) as usize;
                image.insert(at, image[at]);
            }
            // A run of erased cells.
            5 => {
                let from = numbers.below(len + 1) as usize;
                let to = (from + numbers.below(64) as usize).min(image.len());
                let byte = if numbers.below(2) == 0 { 0 } else { 0xFF };
                image[from..to].iter_mut().for_each(|b| *b = byte);
            }
            // Cut short.
            6 if numbers.below(4) == 0 => image.truncate(numbers.below(len + 1) as usize),
            _ => {}
        }
    }
    image
}
