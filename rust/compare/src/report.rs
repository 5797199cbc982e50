//! The tally in words: a table by what was held to what, one by parts, and a last line that sums up.
use std::iter::once;

use crate::explanations;
use crate::pixels::{KINDS, NEEDED};
use crate::sums::Way;
use crate::tally::{distinct, Count, Doings, Held, Part, Tally};

/// A number with its digits in groups of three.
fn grouped(number: u64) -> String {
    let digits = number.to_string();
    let mut text = String::new();
    for (i, digit) in digits.chars().enumerate() {
        if i > 0 && (digits.len() - i) % 3 == 0 {
            text.push(',');
        }
        text.push(digit);
    }
    text
}

/// The library's answers by what they are held to, then what is compared beside them.
fn by_judge(tally: &Tally) {
    let line = |name: &str, meaning: &str, count: Count| {
        println!("{:<8} {:<80} {:>15} {:>10}", name, meaning, grouped(count.compared), grouped(count.different));
    };
    println!("What was compared, by what it was held to:");
    println!("{:<89} {:>15} {:>10}", "", "compared", "different");
    for held in Held::ANSWERS {
        line(held.name(), held.meaning(), tally.total(&[held]));
    }
    line("", "all answers of the library", tally.total(&Held::ANSWERS));
    for held in Held::BESIDE {
        line(held.name(), held.meaning(), tally.total(&[held]));
    }
}

/// What a part compares besides the two kinds that have a column of their own, and which kinds differ.
fn besides(part: &Part) -> String {
    let mut texts = Vec::new();
    for held in Held::all() {
        let Count { compared, different } = part.count(held);
        let has_column = [Held::Crate, Held::Bytes].contains(&held);
        if different > 0 {
            texts.push(format!("{} {} ({} DIFFERENT)", held.name(), grouped(compared), grouped(different)));
        } else if compared > 0 && !has_column {
            texts.push(format!("{} {}", held.name(), grouped(compared)));
        }
    }
    texts.join("; ")
}

fn by_part(tally: &Tally) {
    println!("The same by parts. 'distinct' counts images with the same bytes once; the other names are those above:");
    let line = |cells: [String; 7], besides: &str| {
        let [name, images, distinct, accepted, of_crate, bytes, different] = cells;
        println!(
            "{:<36} {:>10} {:>10} {:>10} {:>14} {:>14} {:>9}{}",
            name, images, distinct, accepted, of_crate, bytes, different, besides
        );
    };
    let part_line = |name: &str, part: &Part, besides: &str| {
        let different = Held::all().map(|held| part.count(held).different).sum();
        let [of_crate, bytes] = [Held::Crate, Held::Bytes].map(|held| part.count(held).compared);
        let counts = [part.images() as u64, distinct(once(part)) as u64, part.accepted, of_crate, bytes, different];
        let [a, b, c, d, e, f] = counts.map(grouped);
        line([name.to_string(), a, b, c, d, e, f], besides);
    };
    let heads = ["part", "images", "distinct", "accepted", "crate", "bytes", "different"];
    line(heads.map(String::from), "  besides");
    let mut whole = Part::default();
    for (name, part) in &tally.parts {
        part_line(name, part, format!("  {}", besides(part)).trim_end());
        whole.add(part.clone());
    }
    part_line("all parts", &whole, "");
}

fn by_refusal(tally: &Tally) {
    let line = |cells: [String; 8]| {
        let [kind, images, a, b, c, d, e, f] = cells;
        println!("{:<22} {:>10}   {:>10} {:>10} {:>10}   {:>10} {:>10} {:>10}", kind, images, a, b, c, d, e, f);
    };
    let doings_line = |kind: String, doings: &Doings| {
        let ([a, b, c], [d, e, f]) = (doings.release.map(grouped), doings.checked.map(grouped));
        line([kind, grouped(doings.seen), a, b, c, d, e, f]);
    };
    println!("What the original crate does with the images that are refused here, and with those that are accepted");
    println!("although one of the sums that it makes in 16 bits leaves them:");
    line(["", "images", "release:", "", "", "overflow", "checks:", ""].map(String::from));
    line(["", "", "answers", "error", "panics", "answers", "error", "panics"].map(String::from));
    for (number, doings) in &tally.refusals {
        doings_line(format!("refusal {}", number), doings);
    }
    doings_line("accepted, a sum leaves".to_string(), &tally.overflows);
}

/// A line of a table with four columns of counts.
fn four_counts(cells: [String; 5]) {
    let [name, a, b, c, d] = cells;
    println!("{:<46} {:>14} {:>14} {:>14} {:>14}", name, a, b, c, d);
}

/// The ways out of 16 bits, one to a line.
fn by_way(tally: &Tally) {
    println!("Sums outside 16 bits, by where they are; none of these counts may be zero. Counted are all pixels of");
    println!("accepted images, and of images refused with 4 the pixel that is named, outside at its end:");
    four_counts(["outside", "offset: above", "below", "alpha: above", "below"].map(String::from));
    for number in 0..Way::COUNT / 2 {
        let [above, below] = [number, number + Way::COUNT / 2];
        let [offset, alpha] = tally.ways;
        let counts = [offset[above], offset[below], alpha[above], alpha[below]];
        let [a, b, c, d] = counts.map(grouped);
        four_counts([Way::of_number(number).place().to_string(), a, b, c, d]);
    }
}

/// Records and listings by the nibble of alpha_ptat, a line for each multiple of 4 and a column for what is above it.
fn by_nibble(tally: &Tally) {
    println!("alpha_ptat by its nibble: held to the crate where that is a multiple of 4, and to the datasheet elsewhere; none of");
    println!("these counts may be zero:");
    four_counts(["nibble", "crate", "1 more: sheet", "2 more: sheet", "3 more: sheet"].map(String::from));
    for fours in [0, 4, 8, 12] {
        let [a, b, c, d] = [0, 1, 2, 3].map(|more| grouped(tally.nibbles[fours + more]));
        four_counts([fours.to_string(), a, b, c, d]);
    }
}

/// Names with their counts, one to a line.
fn counted(names: &[&str], counts: &[u64]) {
    names.iter().zip(counts).for_each(|(name, count)| println!("{:<46} {:>14}", name, grouped(*count)));
}

/// What pixels were given by themselves, and what another value of a word did to that.
fn by_pixel(tally: &Tally) {
    println!("One pixel by itself, by what it was given; none of these counts may be zero:");
    counted(&KINDS, &tally.singles);
    println!("The words that it needs, by how often another value changed its answer; none of these may be zero:");
    counted(&NEEDED, &tally.needed);
}

fn by_explanation(tally: &Tally) {
    println!("Explanations, by what was explained; none of these counts may be zero:");
    counted(&explanations::KINDS, &tally.explained);
}

/// How many are different, and held to what.
fn differences(tally: &Tally) -> String {
    let kinds: Vec<String> = Held::all()
        .filter(|held| tally.total(&[*held]).different > 0)
        .map(|held| format!("{} {}", held.name(), grouped(tally.total(&[held]).different)))
        .collect();
    match kinds.len() {
        0 => "0 different".to_string(),
        _ => format!("{} different ({})", grouped(tally.total_different()), kinds.join(", ")),
    }
}

/// The differences that were kept in words, one to a line.
pub fn print_shown(tally: &Tally) {
    tally.shown.iter().for_each(|text| println!("DIFFERENT {}", text));
}

/// Everything but the last line.
pub fn print(tally: &Tally) {
    by_judge(tally);
    println!();
    by_part(tally);
    println!();
    by_refusal(tally);
    println!();
    by_way(tally);
    println!();
    by_nibble(tally);
    println!();
    by_pixel(tally);
    println!();
    by_explanation(tally);
    print_shown(tally);
}

/// The whole run in one line: how much was compared with what, what differs, and what was left out.
pub fn last_line(tally: &Tally) -> String {
    let left_out = match tally.left_out.len() {
        0 => "no part was left out".to_string(),
        _ => format!("LEFT OUT: {}", tally.left_out.join("; ")),
    };
    let compared = |held: &[Held]| grouped(tally.total(held).compared);
    format!(
        "{} comparisons ({} with the crate, {} again with its overflow checks, {} with the datasheet, {} with models, \
         {} of one pixel and of explanations with the decoder) and {} bytes that had to stay: {}; {}",
        compared(&Held::ANSWERS),
        compared(&[Held::Crate]),
        compared(&[Held::Checked]),
        compared(&[Held::Datasheet]),
        compared(&Held::MODELS),
        compared(&[Held::Decoder]),
        compared(&[Held::Bytes]),
        differences(tally),
        left_out
    )
}
