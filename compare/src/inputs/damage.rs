//! Damaged copies: a byte altered, a part cut out or doubled, a foreign byte put in.

use crate::random::Random;

pub fn damaged(random: &mut Random, text: &[u8]) -> Vec<u8> {
    let mut copy = text.to_vec();
    for _ in 0..=random.below(2) {
        damage_once(random, &mut copy);
    }
    copy
}

fn damage_once(random: &mut Random, text: &mut Vec<u8>) {
    let foreign = random.one_of(&[0x80, 0xBF, 0xC0, 0xC2, 0xE0, 0xE2, 0xED, 0xEF, 0xF0, 0xF4, 0xF5, 0xFF]);
    let place = random.below(text.len() + 1);
    if place == text.len() {
        text.push(foreign);
        return;
    }
    match random.below(7) {
        0 => text[place] ^= 1 << random.below(8),
        1 => text[place] = random.below(256) as u8,
        2 => text[place] = foreign,
        3 => text.insert(place, foreign),
        4 => text.truncate(place),
        5 => {
            text.remove(place);
        }
        _ => {
            let end = (place + 1 + random.below(4)).min(text.len());
            let part = text[place..end].to_vec();
            text.splice(place..place, part);
        }
    }
}
