//! The entries of docs/DIFFERENCES.md, run: each row of its tables is made here from the answers, and the file must hold
//! exactly these rows.
use std::collections::BTreeSet;
use std::env;
use std::fs;
use std::ops::Range;

use compare::apart::Apart;
use compare::images;
use compare::judge::{outcome, Checked, Judge, Outcome, Release};
use compare::model::{self, ALPHA, K_TA, OFFSET};
use compare::tally::{Held, Tally};
use mofuleka::{lent, place, AccessPattern, Calibration, Mlx90640, Refusal, Subpage};

struct Row {
    /// The image that was decoded, where the row has one.
    bytes: Option<Vec<u8>>,
    image: String,
    asked: String,
    release: String,
    checked: String,
    datasheet: String,
    ours: String,
}

impl Row {
    fn text(&self) -> String {
        format!(
            "| {} | {} | {} | {} | {} | {} |",
            self.image, self.asked, self.release, self.checked, self.datasheet, self.ours
        )
    }
}

pub const HEAD: &str = "| image | asked | the crate, release | the crate, overflow checks | the datasheet | ours |";

/// A number that a table cell shows: a short decimal, or the whole fraction over a power of two. Negative zero is "-0".
fn number(number: f64) -> String {
    let short = format!("{}", number);
    if short.len() <= 9 {
        return short;
    }
    let (mut numerator, mut power) = (number, 0);
    while numerator.fract() != 0.0 {
        numerator *= 2.0;
        power += 1;
    }
    while numerator % 2.0 == 0.0 {
        numerator /= 2.0;
        power -= 1;
    }
    if power > 0 {
        format!("{} / 2^{}", numerator, power)
    } else {
        format!("{} x 2^{}", numerator, -power)
    }
}

fn absent(value: Option<f32>) -> String {
    match value {
        None => "absent".to_string(),
        Some(value) => number(f64::from(value)),
    }
}

fn said<T>(outcome: Outcome<T>, show: impl FnOnce(T) -> String) -> String {
    match outcome {
        Outcome::Answer(answer) => show(answer),
        Outcome::Error(text) => format!("error \"{}\"", text),
        // The first words: what follows in some messages are lengths and type names.
        Outcome::Panic(text) if text.starts_with("attempt to") => format!("panics \"{}\"", text),
        Outcome::Panic(_) => "panics".to_string(),
    }
}

fn ours<T>(answer: Result<T, Refusal>, show: impl FnOnce(T) -> String) -> String {
    match answer {
        Ok(answer) => show(answer),
        Err(refusal) => match (refusal.number(), refusal.table()) {
            (number, Some(table)) => format!("refusal {}, table {}, pixel {}", number, table.number(), refusal.place()),
            (number, None) => format!("refusal {}", number),
        },
    }
}

/// The words of an image; three and more that follow each other and are the same stand together.
fn words(words: &[(usize, u16)]) -> String {
    if words.is_empty() {
        return "zero".to_string();
    }
    let (mut texts, mut at) = (Vec::new(), 0);
    while let Some((first, word)) = words.get(at) {
        let run = words[at..].iter().zip(*first..).take_while(|(next, at)| **next == (*at, *word)).count();
        if run < 3 {
            texts.push(format!("{:04X} = {:04X}", first, word));
            at += 1;
        } else {
            texts.push(format!("{:04X}..{:04X} = {:04X}", first, first + run - 1, word));
            at += run;
        }
    }
    texts.join(", ")
}

/// Words that are the same, at some addresses that follow each other.
fn all(addresses: Range<usize>, word: u16) -> Vec<(usize, u16)> {
    addresses.map(|address| (address, word)).collect()
}

/// One number of a decoded image, asked of all three.
fn field(
    set: &[(usize, u16)],
    asked: &str,
    judge: impl Fn(&dyn Fields) -> String,
    datasheet: String,
    mine: impl Fn(&Calibration) -> String,
) -> Row {
    let image = images::with(set);
    Row {
        bytes: Some(image.to_vec()),
        image: words(set),
        asked: asked.to_string(),
        release: said(Release::decode(&image), |answer| judge(&answer)),
        checked: said(Checked::decode(&image), |answer| judge(&answer)),
        datasheet,
        ours: ours(Calibration::from_data(&image), |answer| mine(&answer)),
    }
}

/// What is asked of either build of the original crate.
trait Fields {
    fn offset(&self, pixel: usize) -> String;
    fn alpha(&self, pixel: usize) -> String;
    fn k_ta(&self, pixel: usize) -> String;
    fn k_v(&self, pixel: usize) -> String;
    fn correction(&self, pixel: usize) -> String;
    fn alpha_cp(&self) -> String;
    fn alpha_ptat(&self) -> String;
    fn ambient(&self) -> f64;
    fn gain(&self) -> String;
    fn gradient(&self) -> String;
    fn alpha_correction(&self) -> String;
}

fn float_at(record: &[u8; lent::RECORD_BYTES], at: usize) -> f32 {
    f32::from_be_bytes([record[at], record[at + 1], record[at + 2], record[at + 3]])
}

/// The ambient temperature by the formula of section 11.2.2, on the RAM words of the datasheet's worked example: V_DD 0xCCC5, V_PTAT
/// 0x06AF and V_BE 0x4BF2, read with the resolution of the calibration.
fn ambient(record: &[u8; lent::RECORD_BYTES]) -> f64 {
    let [v_dd, v_ptat, v_be] = [0xCCC5u16, 0x06AF, 0x4BF2].map(|word| f64::from(word as i16));
    let whole = |at: usize| f64::from(i16::from_be_bytes([record[at], record[at + 1]]));
    let float = |at: usize| f64::from(float_at(record, at));
    let delta_v = (v_dd - whole(place::V_DD_25)) / whole(place::K_V_DD);
    let v_ptat_art = v_ptat / (v_ptat * float(place::ALPHA_PTAT) + v_be) * 262_144.0;
    (v_ptat_art / (1.0 + float(place::K_V_PTAT) * delta_v) - float(place::V_PTAT_25)) / float(place::K_T_PTAT) + 25.0
}

impl<J: Judge> Fields for J {
    fn offset(&self, pixel: usize) -> String {
        Judge::offset(self)[pixel].to_string()
    }

    fn alpha(&self, pixel: usize) -> String {
        number(Judge::alpha(self)[pixel].into())
    }

    fn k_ta(&self, pixel: usize) -> String {
        number(Judge::k_ta(self)[pixel].into())
    }

    fn k_v(&self, pixel: usize) -> String {
        let mut all = Vec::new();
        Judge::k_v(self, &mut all);
        all.get(pixel)
            .map(|bits| number(f32::from_bits(*bits).into()))
            .unwrap_or_else(|| "the iterator ends".to_string())
    }

    fn correction(&self, pixel: usize) -> String {
        let mut all = Vec::new();
        Judge::corrections(self, 0, &mut all);
        match all.get(pixel) {
            Some(bits) => absent(bits.map(f32::from_bits)),
            None => "the iterator ends".to_string(),
        }
    }

    fn alpha_cp(&self) -> String {
        number(f32::from_bits(Judge::alpha_cp(self, 0)).into())
    }

    fn alpha_ptat(&self) -> String {
        number(float_at(&self.record(), place::ALPHA_PTAT).into())
    }

    fn ambient(&self) -> f64 {
        ambient(&self.record())
    }

    fn gain(&self) -> String {
        number(float_at(&self.record(), place::GAIN).into())
    }

    fn gradient(&self) -> String {
        let record = self.record();
        absent(match record[place::TEMPERATURE_GRADIENT_PRESENT] {
            0 => None,
            _ => Some(float_at(&record, place::TEMPERATURE_GRADIENT_COEFFICIENT)),
        })
    }

    fn alpha_correction(&self) -> String {
        Judge::alpha_correction(self).iter().map(|x| x.to_string()).collect::<Vec<_>>().join(", ")
    }
}

/// What the datasheet adds up for a pixel. It reads alpha's average without a sign (5).
fn formula(image: &[u8], table: usize, pixel: usize) -> i64 {
    let [average, row, column, remainder] = model::parts(image, table).nth(pixel).unwrap();
    let average = if table == ALPHA { average.rem_euclid(65536) } else { average };
    average + row + column + remainder
}

/// That over a power of two.
fn over(numerator: i64, exponent: i64) -> String {
    number(numerator as f64 / 2f64.powi(exponent as i32))
}

fn offset(set: &[(usize, u16)], pixel: usize) -> Row {
    field(
        set,
        &format!("offset of pixel {}", pixel),
        |judge| judge.offset(pixel),
        formula(&images::with(set), OFFSET, pixel).to_string(),
        |c| c.offset_reference_pixels(Subpage::Zero).nth(pixel).unwrap().to_string(),
    )
}

fn alpha(set: &[(usize, u16)], pixel: usize) -> Row {
    let image = images::with(set);
    field(
        set,
        &format!("alpha of pixel {}", pixel),
        |judge| judge.alpha(pixel),
        over(formula(&image, ALPHA, pixel), model::alpha_scale(&image)),
        |c| number((*c.alpha_pixels(Subpage::Zero).nth(pixel).unwrap()).into()),
    )
}

fn k_ta(set: &[(usize, u16)], pixel: usize) -> Row {
    let image = images::with(set);
    field(
        set,
        &format!("Kta of pixel {}", pixel),
        |judge| judge.k_ta(pixel),
        over(formula(&image, K_TA, pixel), model::k_ta_scale(&image)),
        |c| number((*c.k_ta_pixels(Subpage::Zero).nth(pixel).unwrap()).into()),
    )
}

fn length(len: usize) -> Row {
    let image = vec![0u8; len];
    Row {
        image: format!("{} zero bytes", len),
        asked: "the decoding".to_string(),
        release: said(Release::decode(&image), |_| "accepted".to_string()),
        checked: said(Checked::decode(&image), |_| "accepted".to_string()),
        datasheet: "832 words".to_string(),
        ours: ours(Calibration::from_data(&image), |_| "accepted".to_string()),
        bytes: Some(image),
    }
}

/// Two heads' images, one behind the other.
fn joined() -> Row {
    let (first, second) = ([(0x2430, 0x18EF)], [(0x2430, 0x1234)]);
    let both = [images::with(&first), images::with(&second)].concat();
    Row {
        image: format!("{}, and behind its 1664 bytes a second image, {}", words(&first), words(&second)),
        asked: "gain".to_string(),
        release: said(Release::decode(&both), |answer| Fields::gain(&answer)),
        checked: said(Checked::decode(&both), |answer| Fields::gain(&answer)),
        datasheet: "832 words".to_string(),
        ours: ours(Calibration::from_data(&both), |answer| number(answer.gain().into())),
        bytes: Some(both),
    }
}

/// Images of another length than 1,664 bytes, a page among them.
fn lengths() -> Vec<Row> {
    let lengths = [0, 1, 830, 831, 832, 1663, 1664, 1665, 2047, 2048, 2049, 3328];
    lengths.iter().map(|len| length(*len)).chain([joined()]).collect()
}

fn resolution(calibrated: u8, current: u8, datasheet: &str) -> Row {
    let show = |bits| number(f32::from_bits(bits).into());
    Row {
        bytes: None,
        image: "any".to_string(),
        asked: format!("resolution correction {}, {}", calibrated, current),
        release: said(Release::resolution_correction(calibrated, current), show),
        checked: said(Checked::resolution_correction(calibrated, current), show),
        datasheet: datasheet.to_string(),
        ours: ours(Mlx90640::resolution_correction(calibrated, current), |answer| number(answer.into())),
    }
}

/// The datasheet's correction of a pixel counted from 0, from the word at 0x2435, and the one that the comment's short form of
/// IL_Pattern gives. Worked out in whole eighths: the formula is about numbers, of which one is zero.
fn corrections(pixel: i64, word: u16) -> (f64, f64) {
    let sign_5 = |low: u32| i64::from(word >> low & 0x1F) - if word >> (low + 4) & 1 == 1 { 32 } else { 0 };
    let (c2, c3) = (4 * sign_5(6), sign_5(11));
    let value = |il: i64, conversion: i64| (c3 * (2 * il - 1) - c2 * conversion) as f64 / 8.0;
    let row = pixel / 32 % 2;
    let conversion = ((pixel + 2) / 4 - (pixel + 3) / 4 + (pixel + 1) / 4 - pixel / 4) * (1 - 2 * row);
    let short = (pixel % 2) * (pixel % 4 - 2) * (1 - row * 2);
    (value(row, conversion), value(pixel % 2, short))
}

/// A pixel's correction, where the word at 0x2435 is this one.
fn correction(word: u16, pixel: usize, asked: &str) -> Row {
    let set = [(0x2435, word)];
    field(
        if word == 0 { &[] } else { &set },
        asked,
        |judge| judge.correction(pixel),
        number(corrections(pixel as i64, word).0),
        |c| absent(c.access_pattern_compensation_pixel(pixel, AccessPattern::Interleave).unwrap()),
    )
}

/// Where A is zero, where B is (A = D) and where C is (A = -D): the negated one of the six is -0.
fn signed_zeros() -> Vec<Row> {
    [
        (0x0000, 0, "-A"),
        (0x0000, 1, "B"),
        (0x0000, 3, "-C"),
        (0x0000, 32, "A"),
        (0x0000, 33, "-B"),
        (0x0000, 35, "C"),
        (0x0040, 0, "-A"),
        (0x0040, 1, "B"),
        (0x0040, 32, "A"),
        (0x2040, 1, "B"),
        (0x2040, 33, "-B"),
        (0xE040, 3, "-C"),
        (0xE040, 35, "C"),
    ]
    .iter()
    .map(|(word, pixel, place)| correction(*word, *pixel, &format!("correction of pixel {}, {}", pixel, place)))
    .collect()
}

fn comments_form(pixel: usize) -> Row {
    let (_, comment) = corrections(pixel as i64, 0x0841);
    let asked = format!("correction of pixel {}; by the comment's short form {}", pixel, number(comment));
    correction(0x0841, pixel, &asked)
}

/// Masks and ranges past their end, in one pattern and subpage.
fn past_lists(name: &str, pattern: u32, access: AccessPattern, subpage: Subpage) -> [Row; 2] {
    let end = |answer: Option<String>| answer.unwrap_or_else(|| "the iterator ends".to_string());
    let count = Release::ranges(pattern, 0).len();
    let mask = |list: Vec<bool>| end(list.get(768).map(|x| x.to_string()));
    let range = |list: Vec<String>| end(list.get(count).cloned());
    [
        Row {
            bytes: None,
            image: "any".to_string(),
            asked: format!("whether pixel 768 is in the subpage, {}", name),
            release: said(outcome(|| Ok(Release::mask(pattern, subpage as u32))), mask),
            checked: said(outcome(|| Ok(Checked::mask(pattern, subpage as u32))), mask),
            datasheet: "768 pixels".to_string(),
            ours: ours(Mlx90640::pixel_in_subpage(subpage, access, 768), |x| x.to_string()),
        },
        Row {
            bytes: None,
            image: "any".to_string(),
            asked: format!("range {}, {}", count, name),
            release: said(outcome(|| Ok(Release::ranges(pattern, subpage as u32))), range),
            checked: said(outcome(|| Ok(Checked::ranges(pattern, subpage as u32))), range),
            datasheet: "not a matter of it".to_string(),
            ours: ours(Mlx90640::pixel_range(subpage, access, count), |x| format!("{:?}", x)),
        },
    ]
}

/// A list's end, which is a question past the end here.
fn past_the_end() -> Vec<Row> {
    let mut rows = Vec::new();
    rows.extend(past_lists("Chess", 1, AccessPattern::Chess, Subpage::Zero));
    rows.extend(past_lists("Interleave", 0, AccessPattern::Interleave, Subpage::One));
    rows.push(field(
        &[(0x2434, 0x1234)],
        "Kv of pixel 768",
        |judge| judge.k_v(768),
        "768 pixels".to_string(),
        |c| ours(c.k_v_pixel(768), |x| number(x.into())),
    ));
    rows.push(field(
        &[(0x2435, 0x0841)],
        "correction of pixel 768",
        |judge| judge.correction(768),
        "768 pixels".to_string(),
        |c| ours(c.access_pattern_compensation_pixel(768, AccessPattern::Interleave), absent),
    ));
    rows
}

fn terms() -> Vec<Row> {
    vec![
        offset(&[(0x2410, 0x0F00), (0x2412, 0x0001)], 0),
        offset(&[(0x2410, 0x0F00), (0x2412, 0x0002)], 0),
        offset(&[(0x2410, 0x00F0), (0x2418, 0x0001)], 0),
        offset(&[(0x2410, 0x000B), (0x2440, 0x4000)], 0),
        alpha(&[(0x2420, 0x0F00), (0x2422, 0x0001)], 0),
        alpha(&[(0x2420, 0x000B), (0x2440, 0x0100)], 0),
        k_ta(&[(0x2438, 0x000F), (0x2440, 0x0002)], 0),
    ]
}

fn sums() -> Vec<Row> {
    let (above, below) = ((0x2411, 0x7FFF), (0x2411, 0x8000));
    let with = |first: &[(usize, u16)], then: &[Vec<(usize, u16)>]| [first, &then.concat()].concat();
    vec![
        offset(&[above, (0x2413, 0x0010)], 160),
        offset(&[below, (0x2440, 0xFC00)], 0),
        k_ta(&[(0x2436, 0xFF00), (0x2438, 0x000D), (0x2440, 0x0008)], 0),
        offset(&with(&[above], &[all(0x2412..0x2418, 0x1111), all(0x2418..0x2420, 0xFFFF)]), 0),
        offset(&with(&[below], &[all(0x2412..0x2418, 0xFFFF), all(0x2418..0x2420, 0x1111)]), 0),
        offset(&with(&[above, (0x2412, 0x0001)], &[all(0x2440..0x2460, 0xFC00)]), 0),
    ]
}

/// Alpha's sums outside 16 bits: with row and column, below; back with the remainder; as large as can be; and then two in which
/// the release build is right: back with the column, and outside with the remainder alone. In the last one the average has its
/// top bit set, too.
fn alpha_sums() -> Vec<Row> {
    let outside = [(0x2421, 0x7FFF), (0x2422, 0x0001)];
    let largest = [(0x2420, 0x0CCA), (0x2421, 0x7FFF), (0x2422, 0x0007), (0x2428, 0x0007), (0x2440, 0x01F0)];
    let and = |more: (usize, u16)| [&outside[..], &[more]].concat();
    vec![
        alpha(&outside, 0),
        alpha(&[(0x2420, 0x0F00), (0x2422, 0x000F), (0x2428, 0x000F)], 0),
        alpha(&and((0x2440, 0x03F0)), 0),
        alpha(&largest, 0),
        alpha(&and((0x2428, 0x000F)), 0),
        alpha(&[(0x2421, 0x7FFF), (0x2440, 0x0010)], 0),
        alpha(&[(0x2421, 0x8000), (0x2422, 0x000F)], 0),
    ]
}

fn alpha_ptat(word: u16, datasheet: f64) -> Row {
    field(
        &[(0x2410, word)],
        "alpha_ptat",
        |judge| judge.alpha_ptat(),
        number(datasheet),
        |c| number(c.alpha_ptat().into()),
    )
}

/// What the steps of alpha_ptat come to: the worked example's ambient temperature, with another nibble in its word at 0x2410.
fn ambient_row(word: u16) -> Row {
    let set = [(0x2410, word), (0x2431, 0x2FF1), (0x2432, 0x5952), (0x2433, 0x9D68)];
    let image = images::with(&set);
    let of_crate = Release::decode(&image).answer().expect("the original crate takes an accepted image").record();
    let of_datasheet = Apart::of(&image).record(of_crate);
    let degrees = |ambient: f64| format!("{:.4}", ambient);
    let moved = ambient(&of_datasheet) - ambient(&of_crate);
    field(
        &set,
        &format!("ambient temperature in degrees; from whole to quarter steps it moves by {}", degrees(moved)),
        |judge| degrees(judge.ambient()),
        degrees(ambient(&of_datasheet)),
        |c| degrees(ambient(c.record_bytes())),
    )
}

/// The steps themselves, and what they come to.
fn alpha_ptats() -> Vec<Row> {
    let steps = [(0x1000, 8.25), (0x5000, 9.25), (0x6000, 9.5), (0x7000, 9.75), (0xF000, 11.75), (0x4000, 9.0)];
    let rows = steps.iter().map(|(word, must)| alpha_ptat(*word, *must));
    rows.chain([0x4210, 0x5210, 0x6210, 0x7210].iter().map(|word| ambient_row(*word))).collect()
}

fn alpha_cp() -> Row {
    field(
        &[(0x2439, 0x0200)],
        "alpha_cp of subpage Zero",
        |judge| judge.alpha_cp(),
        format!("{} (unsure: with a sign step {})", number(2f64.powi(-18)), number(-(2f64.powi(-18)))),
        |c| number(c.alpha_cp(Subpage::Zero).into()),
    )
}

fn gradient(set: &[(usize, u16)], datasheet: f64) -> Row {
    field(
        set,
        "temperature_gradient_coefficient",
        |judge| judge.gradient(),
        number(datasheet),
        |c| absent(c.temperature_gradient_coefficient()),
    )
}

fn k_v(pixel: usize, datasheet: f64) -> Row {
    field(
        &[(0x2434, 0x1234)],
        &format!("Kv of pixel {}", pixel),
        |judge| judge.k_v(pixel),
        number(datasheet),
        |c| ours(c.k_v_pixel(pixel), |x| number(x.into())),
    )
}

fn alpha_correction() -> Row {
    // 1 / (1 + KsTo1 * 40); 1; 1 + KsTo2 * CT3; that times (1 + KsTo3 * (CT4 - CT3)), with KsTo -105 / 2^17, CT 160 and 320.
    let k_s_to = -105.0f32 / 131072.0;
    let third = 1.0 + k_s_to * 160.0;
    let factors = [1.0 / (1.0 + k_s_to * 40.0), 1.0, third, third * (1.0 + k_s_to * 160.0)];
    field(
        &[(0x243D, 0x9797), (0x243E, 0x9797), (0x243F, 0x2889)],
        "alpha_correction",
        |judge| judge.alpha_correction(),
        factors.iter().map(|x| x.to_string()).collect::<Vec<_>>().join(", "),
        |_| "not asked".to_string(),
    )
}

/// The sections of the file that have a table, and their rows.
fn entries() -> Vec<(&'static str, Vec<Row>)> {
    let resolutions = [(15, 0), (16, 0), (0, 16), (128, 0), (128, 1)];
    let corrected = [0, 1, 2, 3, 32, 33];
    let k_vs = [(0, 1.0), (1, 3.0), (32, 2.0), (33, 4.0)];
    vec![
        ("1. Images of another length than 1,664 bytes", lengths()),
        ("2. Terms outside 16 bits", terms()),
        ("3. Sums outside 16 bits", sums()),
        ("4. Alpha_PTAT in quarter steps", alpha_ptats()),
        ("5. The sign of the alpha average", vec![alpha(&[(0x2421, 0x8000)], 0), alpha(&[(0x2421, 0xFFFF)], 0)]),
        ("6. The sign of alpha_CP_0", vec![alpha_cp()]),
        ("7. The gradient at zero", vec![gradient(&[], 0.0), gradient(&[(0x243C, 0x00FF)], -1.0 / 32.0)]),
        ("8. Zeros with a sign among the interleave six", signed_zeros()),
        (
            "9. Resolutions above 15",
            resolutions
                .iter()
                .map(|(calibrated, current)| resolution(*calibrated, *current, "fields of 2 bits"))
                .collect(),
        ),
        ("10. Pixels and ranges past the end", past_the_end()),
        ("11. The comment on IL_Pattern", corrected.iter().map(|pixel| comments_form(*pixel)).collect()),
        ("12. Iterators become questions", k_vs.iter().map(|(pixel, must)| k_v(*pixel, *must)).collect()),
        ("13. alpha_correction is left out", vec![alpha_correction()]),
        ("14. Alpha's sums outside 16 bits", alpha_sums()),
    ]
}

/// Holds the file to the rows as they come out today; prints them, if asked to, in the file's form.
pub fn run(tally: &mut Tally, print: bool) {
    let path = match env::var_os("DIFFERENCES") {
        Some(path) => path,
        None => {
            tally.left_out("the rows of docs/DIFFERENCES.md (DIFFERENCES is not set)");
            return;
        }
    };
    tally.part("rows of docs/DIFFERENCES.md");
    let text = fs::read_to_string(&path).unwrap_or_default();
    // What follows has a table of counts, which are no rows.
    let listed = text.split("\n## What was compared\n").next().unwrap_or_default();
    let mut written: BTreeSet<&str> = listed.lines().filter(|line| line.starts_with("| ") && *line != HEAD).collect();
    for (title, rows) in entries() {
        if print {
            println!("## {}\n\n{}\n|---|---|---|---|---|---|", title, HEAD);
        }
        let there = listed.contains(&format!("## {}\n", title));
        tally.same(Held::Files, || format!("a section '{}'", title), there, true);
        for row in rows {
            let line = row.text();
            if print {
                println!("{}", line);
            }
            if let Some(image) = &row.bytes {
                tally.image(image);
                Calibration::from_data(image).iter().for_each(|_| tally.accepted());
            }
            let there = listed.lines().any(|other| other == line);
            tally.same(Held::Files, || format!("in the list: {}", line), there, true);
            written.remove(line.as_str());
        }
        if print {
            println!();
        }
    }
    for line in written {
        tally.different(Held::Files, || format!("listed but not so: {}", line));
    }
}
