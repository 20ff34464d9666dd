//! A shorter image of which the same holds.

use generate::{outline, Role};

/// Tries are given up after so many rounds without an end.
const ROUNDS: usize = 12;

/// Longer parts than this aren't tried to be left out.
const MOST_PART: usize = 12;

/// Leaves out and lowers what it can as long as `holds` says so.
pub fn minimised(image: &[u8], mut holds: impl FnMut(&[u8]) -> bool) -> Vec<u8> {
    let mut best = image.to_vec();
    for _ in 0..ROUNDS {
        let before = best.clone();
        without_parts(&mut best, &mut holds);
        without_counted(&mut best, &mut holds);
        lowered(&mut best, &mut holds);
        if best == before {
            break;
        }
    }
    best
}

/// Leaves out parts of any length, longest first.
fn without_parts(best: &mut Vec<u8>, holds: &mut impl FnMut(&[u8]) -> bool) {
    for length in (1..=MOST_PART).rev() {
        let mut place = 0;
        while place + length <= best.len() {
            let mut next = best.clone();
            next.drain(place..place + length);
            if holds(&next) {
                *best = next;
            } else {
                place += 1;
            }
        }
    }
}

/// Leaves out a part that a count counts, and lowers the count.
fn without_counted(best: &mut Vec<u8>, holds: &mut impl FnMut(&[u8]) -> bool) {
    let counts: Vec<usize> = outline(best)
        .numbers
        .iter()
        .filter(|seen| is_count(seen.role) && seen.value > 0)
        .map(|seen| seen.place)
        .collect();
    for count in counts {
        for length in (1..=MOST_PART).rev() {
            let mut place = count + 1;
            while place + length <= best.len() {
                let mut next = best.clone();
                next[count] = next[count].wrapping_sub(1);
                next.drain(place..place + length);
                if holds(&next) {
                    *best = next;
                } else {
                    place += 1;
                }
            }
        }
    }
}

fn is_count(role: Role) -> bool {
    matches!(
        role,
        Role::Structs | Role::Types | Role::FieldCount | Role::Cells
    )
}

/// Lowers bytes, to 0 or by one.
fn lowered(best: &mut Vec<u8>, holds: &mut impl FnMut(&[u8]) -> bool) {
    for place in 0..best.len() {
        for value in [0, 1, best[place].saturating_sub(1)] {
            if value < best[place] {
                let mut next = best.clone();
                next[place] = value;
                if holds(&next) {
                    *best = next;
                }
            }
        }
    }
}
