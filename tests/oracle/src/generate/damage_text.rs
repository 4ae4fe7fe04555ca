//! Damage to a text, a package or a formula: bytes, fields and lines changed without regard to meaning.

use crate::generate::random::Random;

/// Bytes that stand in packages, and some that never do.
const BYTES: &[u8] = b"  \n\n--00112345679abcyzGBOAZgo{`+.\t\r\x00\x7f\x80\xff";

/// Fields at the edges of number and word form and of the bounds, parted by `|`.
const FIELDS: &str = "|-|--|a-|0|1|2|3|6|7|8|9|00|01|+1|-1|24|25|26|27|32|33|64|65|127|128|255|256|257|512|\
    996|997|63001|65520|65521|65522|65535|65536|65537|99999|100000|4294967297|18446744073709551617|\
    a|b|c|z|A|aA|aa|ab|ba|a1|{|aaaaaaaaaaaaaaaaaaaaaaaa|aaaaaaaaaaaaaaaaaaaaaaaaa|bbbbbbbbbbbbbbbbbbbbbbbb|\
    bbbbbbbbbbbbbbbbbbbbbbbbb|G|B|O|g|GB|kind|coef word|1 -";

/// One to three damages.
pub fn damage(random: &mut Random, text: &[u8]) -> Vec<u8> {
    let mut text = text.to_vec();
    let times = if random.one_in(3) { random.between(2, 3) } else { 1 };
    for _ in 0..times {
        text = match random.below(3) {
            0 => damage_byte(random, text),
            1 => damage_line(random, text),
            _ => damage_field(random, text),
        };
    }
    text
}

fn damage_byte(random: &mut Random, mut text: Vec<u8>) -> Vec<u8> {
    let place = random.below(text.len() as u64 + 1) as usize;
    let byte = *random.pick(BYTES);
    match random.below(6) {
        0 if place < text.len() => text[place] ^= 1 << random.below(8),
        1 if place < text.len() => text[place] = byte,
        2 if place < text.len() => drop(text.remove(place)),
        3 => text.truncate(place),
        4 => text.push(byte),
        _ => text.insert(place, byte),
    }
    text
}

/// The lines of a text without their ends, and whether the last one is ended.
fn split(text: &[u8]) -> (Vec<Vec<u8>>, bool) {
    let mut lines: Vec<Vec<u8>> = text.split(|byte| *byte == 10).map(<[u8]>::to_vec).collect();
    let ended = lines.last().is_some_and(Vec::is_empty);
    if ended {
        lines.pop();
    }
    (lines, ended)
}

fn join(lines: &[Vec<u8>], ended: bool) -> Vec<u8> {
    let mut text = lines.join(&10);
    if ended && !lines.is_empty() {
        text.push(10);
    }
    text
}

fn damage_line(random: &mut Random, text: Vec<u8>) -> Vec<u8> {
    let (mut lines, mut ended) = split(&text);
    if lines.is_empty() {
        return text;
    }
    let (one, other) = (random.index(&lines), random.index(&lines));
    match random.below(8) {
        0 => drop(lines.remove(one)),
        1 => lines.insert(one, lines[one].clone()),
        2 => lines.insert(other, lines[one].clone()),
        3 => lines.swap(one, other),
        4 if one + 1 < lines.len() => lines.swap(one, one + 1),
        5 => lines.truncate(one),
        6 => lines.insert(one, Vec::new()),
        _ => ended = false,
    }
    join(&lines, ended)
}

fn damage_field(random: &mut Random, text: Vec<u8>) -> Vec<u8> {
    let (mut lines, ended) = split(&text);
    if lines.is_empty() {
        return text;
    }
    let index = random.index(&lines);
    let mut fields: Vec<Vec<u8>> = lines[index].split(|byte| *byte == b' ').map(<[u8]>::to_vec).collect();
    let (one, other) = (random.index(&fields), random.index(&fields));
    match random.below(8) {
        0 => drop(fields.remove(one)),
        1 => fields.insert(one, fields[one].clone()),
        2 => fields.swap(one, other),
        3 => fields[one] = fields[other].clone(),
        _ => {
            let edges: Vec<&str> = FIELDS.split('|').collect();
            fields[one] = random.pick(&edges).as_bytes().to_vec();
        }
    }
    lines[index] = fields.join(&b' ');
    join(&lines, ended)
}
