//! The calendar by dates whose numbers are known otherwise, typed here, and by
//! going through all of its days.

use at45db081d_model::{Date, Term};

/// Dates with their numbers: what `date -u -d DATE +%s` of coreutils says, less
/// that of 2000-01-01, divided by 86,400.
const NUMBERS: [((u32, u32, u32), u32); 14] = [
    ((2000, 1, 1), 0),
    ((2199, 12, 31), 73_048),
    ((2000, 1, 31), 30),
    ((2000, 2, 29), 59),
    ((2000, 12, 31), 365),
    ((2001, 1, 1), 366),
    ((2004, 2, 29), 1_520),
    ((2026, 11, 16), 9_816),
    ((2038, 1, 19), 13_898),
    ((2096, 2, 29), 35_123),
    ((2100, 2, 28), 36_583),
    ((2100, 3, 1), 36_584),
    ((2101, 1, 1), 36_890),
    ((2199, 1, 1), 72_684),
];

#[test]
fn dates_have_their_numbers() {
    for ((year, month, day), number) in NUMBERS {
        let found = Date::new(year, month, day).number();
        assert_eq!(found, Some(number), "{year}-{month}-{day}");
    }
}

/// In the order of the calendar, with years, months and days beyond its edges.
#[test]
fn days_follow_one_another_without_a_gap() {
    let mut next = 0;
    for year in 1999..=2200 {
        for month in 0..=13 {
            for day in 0..=32 {
                if let Some(number) = Date::new(year, month, day).number() {
                    assert_eq!(number, next, "{year}-{month}-{day}");
                    next += 1;
                }
            }
        }
    }
    assert_eq!(next, 73_049);
}

#[test]
fn dates_that_there_are_not() {
    const HUGE: u32 = u32::MAX;
    for (year, month, day) in [
        (1999, 12, 31),
        (2200, 1, 1),
        (0, 1, 1),
        (HUGE, 1, 1),
        (2000, 0, 1),
        (2000, 13, 1),
        (2000, HUGE, 1),
        (2000, 1, 0),
        (2000, 1, 32),
        (2000, 1, HUGE),
        (2000, 2, 30),
        (2001, 2, 29),
        (2100, 2, 29),
        (2000, 4, 31),
        (2000, 6, 31),
        (2000, 9, 31),
        (2000, 11, 31),
        (HUGE, HUGE, HUGE),
        (0, 0, 0),
    ] {
        assert_eq!(Date::new(year, month, day).number(), None);
    }
    // The others of the seven long months.
    for month in [1, 3, 5, 7, 8, 10, 12] {
        assert!(Date::new(2100, month, 31).number().is_some());
        assert_eq!(Date::new(2100, month, 32).number(), None);
    }
}

#[test]
fn terms_have_their_days_in_order() {
    let [before, first, last] = [(2099, 12, 31), (2100, 1, 1), (2100, 2, 28)]
        .map(|(year, month, day)| Date::new(year, month, day));
    let none = Date::new(2100, 2, 29);
    assert_eq!(Term::new(first, last).days(), Some([36_525, 36_583]));
    assert_eq!(Term::new(first, first).days(), Some([36_525, 36_525]));
    assert_eq!(Term::new(first, before).days(), None);
    assert_eq!(Term::new(first, none).days(), None);
    assert_eq!(Term::new(none, last).days(), None);
    assert_eq!(Term::new(none, none).days(), None);
}
