//! What flashrom writes.

use conformance::Rng;
use slipknoll::Part;

/// Pages of the longest stretch of one kind.
const STRETCH_PAGES: usize = 40;

/// The image that is written to an erased array.
pub fn written(part: Part) -> Vec<u8> {
    random(part, 0)
}

/// The image that is then written over what is there, by one of the erases.
pub fn overwritten(part: Part, erase: usize) -> Vec<u8> {
    random(part, 1 + erase as u64)
}

/// An image of erased and of programmed stretches, of any length and at any
/// place in a page: random bytes, zeros, and erased ones with a few others.
pub fn random(part: Part, seed: u64) -> Vec<u8> {
    let mut rng = Rng::new(seed);
    let mut image = Vec::with_capacity(part.array_len());
    while image.len() < part.array_len() {
        let rest = part.array_len() - image.len();
        let most = rest.min(STRETCH_PAGES * part.page_len());
        let mut stretch = vec![0xFF; 1 + rng.below(most)];
        match rng.below(5) {
            0 | 1 => rng.fill(&mut stretch),
            2 => stretch.fill(0),
            3 => {
                for _ in 0..=stretch.len() / 1000 {
                    let place = rng.below(stretch.len());
                    stretch[place] = rng.byte();
                }
            }
            _ => {}
        }
        image.extend(stretch);
    }
    image
}

/// The number of pages that are not erased.
pub fn programmed_pages(part: Part, image: &[u8]) -> u64 {
    let erased = |page: &&[u8]| page.iter().all(|&byte| byte == 0xFF);
    let pages = image.chunks(part.page_len());
    pages.filter(|page| !erased(page)).count() as u64
}

/// The first place where two images differ, in words.
pub fn compare(what: &str, found: &[u8], expected: &[u8]) -> Result<(), String> {
    if found.len() != expected.len() {
        let (found, expected) = (found.len(), expected.len());
        return Err(format!("{what}: {found} bytes instead of {expected}"));
    }
    match found.iter().zip(expected).position(|(x, y)| x != y) {
        None => Ok(()),
        Some(at) => Err(format!(
            "{what}: byte {at} is {:02X} instead of {:02X}",
            found[at], expected[at]
        )),
    }
}

#[cfg(test)]
mod tests {
    use super::*;

    /// The images have pages that are erased, full and both.
    #[test]
    fn all_kinds_of_pages() {
        for part in [Part::Full, Part::Full256] {
            for seed in 0..5 {
                kinds_of_pages(part, &random(part, seed));
            }
        }
    }

    fn kinds_of_pages(part: Part, image: &[u8]) {
        assert_eq!(image.len(), part.array_len());
        let erased = |page: &[u8]| page.iter().filter(|&&byte| byte == 0xFF).count();
        let counts: Vec<_> = image.chunks(part.page_len()).map(erased).collect();
        let number = |kind: std::ops::RangeInclusive<usize>| {
            counts.iter().filter(|count| kind.contains(count)).count()
        };
        assert!(number(part.page_len()..=part.page_len()) > 500, "erased");
        assert!(number(0..=15) > 500, "full");
        assert!(number(16..=part.page_len() - 1) > 100, "both");
    }
}
