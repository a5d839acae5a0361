//! What goes wrong with dates and terms: each slip reads a date, tests or judges it
//! otherwise.

use at45db081d_model::slot::Head;
use at45db081d_model::{answer, Call, Date, Part, Term};

use super::Slip;
use crate::dates;

const NEW_YEAR: Date = Date::new(2000, 1, 1);

/// The call with its dates, or a patch's place, as the slip reads them.
pub fn read<'a>(slip: Slip, array: &[u8], call: Call<'a>) -> Call<'a> {
    match call {
        Call::Put {
            slot,
            poll_limit,
            term,
            recipe,
        } => Call::Put {
            slot,
            poll_limit,
            term: term.map(|term| read_term(slip, term)),
            recipe,
        },
        Call::Get {
            slot,
            poll_limit,
            today,
            buffer,
        } => Call::Get {
            slot,
            poll_limit,
            today: match slip {
                Slip::DatesUntestedOnVersion1
                    if today.number().is_none() && version(array, slot) == Some(1) =>
                {
                    NEW_YEAR
                }
                _ => read_date(slip, today),
            },
            buffer,
        },
        Call::Patch {
            slot,
            poll_limit,
            place,
            bytes,
        } if slip == Slip::PatchCountsBehindLength && version(array, slot) == Some(2) => {
            Call::Patch {
                slot,
                poll_limit,
                place: place.saturating_sub(8),
                bytes,
            }
        }
        call => call,
    }
}

/// The first byte of a slot.
fn version(array: &[u8], slot: usize) -> Option<u8> {
    let part = Part::from_array_len(array.len())?;
    let bytes = array.chunks_exact(part.slot_size()).nth(slot)?;
    Some(bytes[0])
}

fn read_term(slip: Slip, Term { first, last }: Term) -> Term {
    match (slip, first.number(), last.number()) {
        (Slip::FirstAfterLastTaken, Some(a), Some(b)) if a > b => Term::new(last, first),
        _ => Term::new(read_date(slip, first), read_date(slip, last)),
    }
}

/// The date of the right calendar that has the number which the slip gives to this.
fn read_date(slip: Slip, date: Date) -> Date {
    let Date { year, month, day } = date;
    match (slip, date.number()) {
        (Slip::LeapYear2100, Some(number)) if (year, month) > (2100, 2) => {
            dates::nearest(i64::from(number) + 1)
        }
        (Slip::LeapYear2100, None) if (year, month, day) == (2100, 2, 29) => Date::new(2100, 3, 1),
        (Slip::YearsUntested, None) if Date::new(2000, month, day).number().is_some() => match year
        {
            0..=1999 => NEW_YEAR,
            _ => Date::new(2199, 12, 31),
        },
        (Slip::LongMonths, None) if (29..=31).contains(&day) => {
            let ends = [30, 29, 28].map(|day| Date::new(year, month, day));
            let end = ends.into_iter().find(|it| it.number().is_some());
            end.unwrap_or(date)
        }
        (Slip::NarrowNumbers, None) => Date::new(year % 0x1_0000, month % 0x100, day % 0x100),
        _ => date,
    }
}

/// The refusals with 14 in another place, or 5 by the other version's limit.
pub fn refuse(
    slip: Slip,
    right: Result<(), u8>,
    call: &Call,
    part: Option<Part>,
    log_fits: bool,
) -> Result<(), u8> {
    let (part, term, len) = match (part, call) {
        (Some(part), Call::Put { term, recipe, .. }) => (part, term.is_some(), recipe.len()),
        (Some(part), _) => (part, true, 0),
        _ => return right,
    };
    match (slip, right) {
        (Slip::DatesBeforeSize, Err(answer::SIZE)) if !call.dates_fit() => Err(answer::DATES),
        (Slip::LogBeforeDates, Err(answer::DATES)) if !log_fits => Err(answer::LOG),
        (Slip::ShorterLimitForAll, Ok(())) if !term && len > part.max_term_recipe() => {
            Err(answer::SIZE)
        }
        _ => right,
    }
}

/// Whether 5 is not met by a put of this length, by the longer limit.
pub fn fits_longer(slip: Slip, part: Part, call: &Call) -> bool {
    match call {
        Call::Put {
            term: Some(_),
            recipe,
            ..
        } => {
            slip == Slip::LongerLimitForTerms
                && recipe.len() <= part.max_recipe()
                && call.dates_fit()
        }
        _ => false,
    }
}

/// What a get on this day comes to, by the slot's first bytes.
pub fn judge_get(
    slip: Slip,
    right: Result<usize, u8>,
    part: Part,
    bytes: &[u8],
    today: u32,
) -> Result<usize, u8> {
    let number = |at: usize| u32::from_be_bytes([0, 1, 2, 3].map(|i| bytes[at + i]));
    let len = usize::from(u16::from_be_bytes([bytes[1], bytes[2]]));
    let days = match (bytes[0], Head::read(part, bytes)) {
        (2, _) => [number(3), number(7)],
        (1, Ok(head)) if slip == Slip::ShorterLimitForAll && head.len > part.max_term_recipe() => {
            return Err(answer::BLANK)
        }
        _ => return right,
    };
    let ended = matches!(right, Ok(_) | Err(answer::TERM));
    let outside = Err(answer::TERM);
    let [first, last] = days;
    match slip {
        Slip::FirstDayExcluded if right.is_ok() && today == first => outside,
        Slip::LastDayExcluded if right.is_ok() && today == last => outside,
        Slip::TermBeforeBlank if right == Err(answer::BLANK) => {
            match first <= today && today <= last {
                true => right,
                false => outside,
            }
        }
        Slip::TermForgotten if right == outside => Ok(len),
        Slip::StoredDaysTested if ended && (first > dates::LAST || last > dates::LAST) => {
            Err(answer::BLANK)
        }
        Slip::DaysOfTwoBytes if ended => {
            let [first, last, today] = [first, last, today].map(|day| day & 0xFFFF);
            match first <= today && today <= last {
                true => Ok(len),
                false => outside,
            }
        }
        Slip::LongerLimitForTerms if right == Err(answer::BLANK) && len <= part.max_recipe() => {
            Ok(len)
        }
        _ => right,
    }
}

/// What a patch comes to: under one slip a term that is never open is seen.
pub fn judge_patch(
    slip: Slip,
    right: Result<usize, u8>,
    part: Part,
    bytes: &[u8],
) -> Result<usize, u8> {
    match (slip, right, Head::read(part, bytes)) {
        (
            Slip::PatchLooksAtTerm,
            Ok(_),
            Ok(Head {
                days: Some([first, last]),
                ..
            }),
        ) if first > last => Err(answer::TERM),
        _ => right,
    }
}

/// Turns both days of a head around.
pub fn turn_days(head: &mut [u8]) {
    head[3..7].reverse();
    head[7..11].reverse();
}
