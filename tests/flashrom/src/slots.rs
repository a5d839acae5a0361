//! Recipes in slots, as 9.1 and 9.4 of `docs/SPECIFICATION.md` place them: slot
//! s is block s, with a head, the recipe, and zeros to the end.

use slipknoll::Part;

/// What a slot of the part holds after a put, with the numbers of its first and its
/// last day if it has a term.
pub fn stored(part: Part, days: Option<[u32; 2]>, recipe: &[u8]) -> Vec<u8> {
    let mut slot = vec![if days.is_some() { 2 } else { 1 }];
    slot.extend((recipe.len() as u16).to_be_bytes());
    for day in days.into_iter().flatten() {
        slot.extend(day.to_be_bytes());
    }
    slot.extend(recipe);
    assert!(slot.len() <= part.slot_len(), "a recipe fits its slot");
    slot.resize(part.slot_len(), 0);
    slot
}

#[cfg(test)]
mod tests {
    use super::*;

    /// The records of `crates/bench/specs/Table.antt`.
    #[test]
    fn stored_as_in_the_bench_table() {
        let two = stored(Part::Full, None, &[0x41, 0x42]);
        assert_eq!(two[..5], [0x01, 0x00, 0x02, 0x41, 0x42]);
        assert_eq!(two[5..], [0; 2107]);
        assert_eq!(stored(Part::Full, None, &[])[..3], [0x01, 0x00, 0x00]);
        for (part, len, head) in [
            (Part::Full, 2109, [0x01, 0x08, 0x3D]),
            (Part::Full256, 2045, [0x01, 0x07, 0xFD]),
        ] {
            let longest = stored(part, None, &vec![0xFF; len]);
            assert_eq!((&longest[..3], longest.len()), (&head[..], len + 3));
        }
    }

    /// First and last day stand before the recipe, four bytes each.
    #[test]
    fn stored_with_a_term() {
        let two = stored(Part::Full, Some([0, 73_048]), &[0x41, 0x42]);
        let head = [0x02, 0x00, 0x02, 0, 0, 0, 0, 0x00, 0x01, 0x1D, 0x58];
        assert_eq!(two[..11], head);
        assert_eq!(two[11..14], [0x41, 0x42, 0x00]);
        assert_eq!(two.len(), 2112);
    }
}
