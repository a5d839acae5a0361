/// The chip's size, which the length of its array tells.
///
/// ```
/// use slipknoll::Part;
///
/// assert_eq!(Part::Full.array_len(), 1_081_344);
/// assert_eq!(Part::from_array_len(32_768), Some(Part::Short256));
/// assert_eq!(Part::Short256.slots(), 16);
/// assert_eq!([Part::Full, Part::Full256].map(Part::recipe_max), [2109, 2045]);
/// assert_eq!([Part::Full, Part::Full256].map(Part::term_recipe_max), [2101, 2037]);
/// ```
#[derive(Clone, Copy, Debug, PartialEq, Eq, Hash)]
pub enum Part {
    /// 4,096 pages of 264 bytes, as the real chip has.
    Full,
    /// 128 pages of 264 bytes.
    Short,
    /// 4,096 pages of 256 bytes, as the real chip has if it is preset so: its
    /// status has a 1 in bit 0.
    Full256,
    /// 128 pages of 256 bytes.
    Short256,
}

impl Part {
    /// Every part.
    pub const ALL: [Part; 4] = [Part::Full, Part::Short, Part::Full256, Part::Short256];

    /// The part whose array has this length.
    pub fn from_array_len(len: usize) -> Option<Part> {
        (Part::ALL.into_iter()).find(|part| part.array_len() == len)
    }

    /// The number of pages.
    pub const fn pages(self) -> usize {
        match self {
            Part::Full | Part::Full256 => 4096,
            Part::Short | Part::Short256 => 128,
        }
    }

    /// Bytes of a page.
    pub const fn page_len(self) -> usize {
        match self {
            Part::Full | Part::Short => 264,
            Part::Full256 | Part::Short256 => 256,
        }
    }

    /// Bytes of the array.
    pub const fn array_len(self) -> usize {
        self.pages() * self.page_len()
    }

    /// Bytes of a slot: eight pages.
    pub const fn slot_len(self) -> usize {
        8 * self.page_len()
    }

    /// The longest recipe; a slot has three bytes more.
    pub const fn recipe_max(self) -> usize {
        self.slot_len() - 3
    }

    /// The longest recipe with a term, which takes eight bytes.
    pub const fn term_recipe_max(self) -> usize {
        self.recipe_max() - 8
    }

    /// The number of slots.
    pub const fn slots(self) -> usize {
        self.array_len() / self.slot_len()
    }

    /// Bytes of a cut's junk: one for each of the two buffers and of the array.
    pub const fn junk_len(self) -> usize {
        2 * self.page_len() + self.array_len()
    }
}

/// The level of the WP pin.
#[derive(Clone, Copy, Debug, PartialEq, Eq, Hash)]
pub enum Level {
    /// Sectors that are listed in the protection register are sealed.
    Low,
    /// They are sealed only if the protect mark is set.
    High,
}

#[cfg(test)]
mod tests {
    use super::*;

    /// Array, page, slot, longest recipes without and with a term, slots and junk
    /// of each part.
    #[test]
    fn lengths() {
        let found = Part::ALL.map(|it| {
            [
                it.array_len(),
                it.page_len(),
                it.slot_len(),
                it.recipe_max(),
                it.term_recipe_max(),
                it.slots(),
                it.junk_len(),
            ]
        });
        let expected = [
            [1_081_344, 264, 2112, 2109, 2101, 512, 1_081_872],
            [33_792, 264, 2112, 2109, 2101, 16, 34_320],
            [1_048_576, 256, 2048, 2045, 2037, 512, 1_049_088],
            [32_768, 256, 2048, 2045, 2037, 16, 33_280],
        ];
        assert_eq!(found, expected);
        for part in Part::ALL {
            assert_eq!(Part::from_array_len(part.array_len()), Some(part));
            assert!(part.slot_len() <= crate::SLOT_ROOM);
        }
        assert_eq!(Part::from_array_len(33_280), None);
    }
}
