//! Small random faults in any bytes.

use super::random::Random;

/// The bytes after one to three random edits; new bytes come mostly from `likely`.
pub fn damaged(random: &mut Random, bytes: &[u8], likely: &[u8]) -> Vec<u8> {
    let mut bytes = bytes.to_vec();
    for _ in 0..=random.below(3) {
        edit(random, &mut bytes, likely);
    }
    bytes
}

fn edit(random: &mut Random, bytes: &mut Vec<u8>, likely: &[u8]) {
    let place = random.below(bytes.len() + 1);
    let byte = if random.one_in(8) {
        random.byte()
    } else {
        random.pick(likely)
    };
    let inside = place < bytes.len();
    match random.below(8) {
        0..=2 if inside => bytes[place] = byte,
        0..=4 => bytes.insert(place, byte),
        5 if inside => {
            bytes.remove(place);
        }
        6 => bytes.truncate(place),
        _ => {
            let again = bytes[place..].to_vec();
            bytes.extend(again);
        }
    }
}

#[cfg(test)]
mod tests {
    use super::*;

    #[test]
    fn same_seed_same_damage() {
        let made = |seed| damaged(&mut Random::new(seed), b"some bytes", b"xy");
        assert_eq!(made(3), made(3));
        assert!((0..20).any(|seed| made(seed) != made(seed + 1)));
    }

    #[test]
    fn mostly_changes_something_and_takes_empty_bytes() {
        let mut random = Random::new(1);
        let changed = (0..1000)
            .filter(|_| damaged(&mut random, b"some bytes", b"xy") != b"some bytes")
            .count();
        assert!(changed > 900);
        (0..1000).for_each(|_| {
            damaged(&mut random, b"", b"");
        });
    }
}
