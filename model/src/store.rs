//! The store a second time, from the words that ask for it: two images of n bytes and 8 marks used in turn; the sum of
//! the marks, modulo 256, says which image is in force and which mark is raised next. A step is given the store as it is
//! read back, the new image and where to go on. It writes only bytes of the spare image that differ, in rising order,
//! then one mark. A store of another length is refused.

/// Bytes after the images.
pub const MARKS: usize = 8;

/// What to do next.
#[derive(Clone, Copy, Debug, PartialEq, Eq)]
pub enum Step {
    Write { place: usize, byte: u8 },
    Done,
    Unfit,
}

/// A store's parts.
struct Parts<'a> {
    images: [&'a [u8]; 2],
    marks: &'a [u8],
}

fn parts(store: &[u8], n: usize) -> Option<Parts<'_>> {
    if store.len().checked_sub(MARKS)? != n.checked_mul(2)? {
        return None;
    }
    let (first, rest) = store.split_at(n);
    let (second, marks) = rest.split_at(n);
    Some(Parts { images: [first, second], marks })
}

impl Parts<'_> {
    fn counter(&self) -> usize {
        self.marks.iter().map(|&mark| usize::from(mark)).sum::<usize>() % 256
    }

    /// Which image is in force, 0 or 1.
    fn in_force(&self) -> usize {
        self.counter() % 2
    }
}

/// The image in force, and where it begins.
pub fn current(store: &[u8], n: usize) -> Option<(usize, &[u8])> {
    let parts = parts(store, n)?;
    let which = parts.in_force();
    Some((which * n, parts.images[which]))
}

/// The next step. From 0, and from after the images, it is first asked whether the new image is in force.
pub fn next(store: &[u8], new: &[u8], from: usize) -> Step {
    let n = new.len();
    let Some(parts) = parts(store, n) else { return Step::Unfit };
    let in_force = parts.in_force();
    if (from == 0 || from > 2 * n) && parts.images[in_force] == new {
        return Step::Done;
    }
    let spare = 1 - in_force;
    let differing: Vec<usize> = (0..n).filter(|&i| parts.images[spare][i] != new[i]).collect();
    let later = differing.iter().find(|&&i| spare * n + i >= from);
    match later.or(differing.first()) {
        Some(&i) => Step::Write { place: spare * n + i, byte: new[i] },
        None => {
            let turn = parts.counter() % MARKS;
            Step::Write { place: 2 * n + turn, byte: parts.marks[turn].wrapping_add(1) }
        }
    }
}

#[cfg(test)]
mod tests {
    use super::*;
    use crate::random::Random;

    fn store(images: &[u8], marks: [u8; MARKS]) -> Vec<u8> {
        [images, &marks].concat()
    }

    fn run(store: &mut [u8], new: &[u8]) -> Vec<(usize, u8)> {
        let (mut from, mut writes) = (0, Vec::new());
        while let Step::Write { place, byte } = next(store, new, from) {
            store[place] = byte;
            writes.push((place, byte));
            from = place + 1;
        }
        writes
    }

    #[test]
    fn by_hand() {
        let mut at = store(&[1, 2, 3, 4], [0; 8]);
        assert_eq!(current(&at, 2), Some((0, &[1, 2][..])));
        assert_eq!(run(&mut at, &[3, 5]), [(3, 5), (4, 1)]);
        assert_eq!(current(&at, 2), Some((2, &[3, 5][..])));
        assert_eq!(run(&mut at, &[9, 8]), [(0, 9), (1, 8), (5, 1)]);
        assert_eq!(run(&mut at, &[9, 8]), []);
        assert_eq!(next(&at, &[9], 0), Step::Unfit);
        // a mark of 255, and a position that is too far on
        assert_eq!(
            next(&store(&[7, 7, 1, 2], [0, 0, 0, 0, 0, 0, 0, 255]), &[7, 7], 2),
            Step::Write { place: 11, byte: 0 }
        );
        assert_eq!(next(&store(&[1, 2, 3, 4], [0; 8]), &[9, 4], 4), Step::Write { place: 2, byte: 9 });
    }

    #[test]
    fn every_cut_leaves_the_old_image_or_the_new_one() {
        let mut random = Random::new(35);
        for _ in 0..300 {
            let n = random.below(9);
            let (mut at, new) = (random.bytes(2 * n + MARKS), random.bytes(n));
            let old = current(&at, n).expect("a store").1.to_vec();
            let mut from = 0;
            while let Step::Write { place, byte } = next(&at, &new, from) {
                for value in 0..=255 {
                    let mut left = at.clone();
                    left[place] = value;
                    let found = current(&left, n).expect("a store").1;
                    assert!(found == old || found == new);
                }
                at[place] = byte;
                from = place + 1;
            }
            assert_eq!(current(&at, n).expect("a store").1, new);
        }
    }
}
