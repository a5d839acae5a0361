//! The library's calendar against `date` of coreutils, which nobody here wrote:
//! every day of 2000 to 2199, and whatever might be taken for one.

use std::collections::HashMap;
use std::fs;
use std::path::Path;
use std::process::{Command, Stdio};

use at45db081d_model::Date;
use slipknoll::{log_len, Chip, Error, Part, Run, FACTORY_LEN};

/// The days from 1 January 2000 to 31 December 2199.
const DAYS: usize = 73_049;

/// Years, months and days that are tried, each with each; those of `date` are the
/// years in between.
const YEARS: std::ops::RangeInclusive<u32> = 1999..=2200;
const MONTHS: std::ops::RangeInclusive<u32> = 0..=13;
const DAYS_OF_MONTH: std::ops::RangeInclusive<u32> = 0..=32;

/// Every combination of these.
fn dates() -> Vec<Date> {
    let mut dates = Vec::new();
    for year in YEARS {
        for month in MONTHS {
            dates.extend(DAYS_OF_MONTH.map(|day| Date::new(year, month, day)));
        }
    }
    dates
}

fn text(date: Date) -> String {
    format!("{:04}-{:02}-{:02}", date.year, date.month, date.day)
}

/// What `date` says of the dates of 2000 to 2199: the days since 1 January 2000 of
/// those that it takes. It is run once, on a list of them all, a file of this name.
fn numbers_by_date(name: &str) -> HashMap<String, u32> {
    let version = Command::new("date").arg("--version").output();
    let version = String::from_utf8(version.expect("date runs").stdout).expect("text");
    assert!(version.contains("GNU coreutils"), "{version}");

    let asked = dates();
    let within = asked.iter().filter(|it| (2000..=2199).contains(&it.year));
    let list: String = within.map(|&it| text(it) + "\n").collect();
    let path = Path::new(env!("CARGO_TARGET_TMPDIR")).join(name);
    fs::write(&path, list).expect("a file");
    let run = Command::new("date")
        .env("LC_ALL", "C")
        .arg("--utc")
        .arg("--file")
        .arg(&path)
        .arg("+%Y-%m-%d %s")
        // Of each that it does not take.
        .stderr(Stdio::null())
        .output()
        .expect("date runs");
    let said = String::from_utf8(run.stdout).expect("text");
    let seconds = said.lines().map(|line| {
        let (date, seconds) = line.split_once(' ').expect("a date and its seconds");
        (date.to_string(), seconds.parse::<u64>().expect("a number"))
    });
    let seconds: HashMap<String, u64> = seconds.collect();
    let first = seconds["2000-01-01"];
    let number = |seconds: u64| {
        assert_eq!((seconds - first) % 86_400, 0);
        ((seconds - first) / 86_400) as u32
    };
    seconds.into_iter().map(|(it, s)| (it, number(s))).collect()
}

/// The first date to which a calendar gives another number than `date`, or a number
/// where `date` has none.
fn first_difference(
    numbers: &HashMap<String, u32>,
    mut calendar: impl FnMut(Date) -> Option<u32>,
) -> Option<String> {
    assert_eq!(numbers.len(), DAYS);
    dates().into_iter().find_map(|date| {
        let (found, expected) = (calendar(date), numbers.get(&text(date)).copied());
        match found == expected {
            true => None,
            false => Some(format!("{}: {found:?}, not {expected:?}", text(date))),
        }
    })
}

/// A chip of the library; the number of a date is what a put with this first and
/// last day leaves in its slot.
struct Bench {
    chip: Chip,
    array: Vec<u8>,
}

impl Bench {
    fn new() -> Bench {
        let mut array = vec![0; Part::Short.array_len()];
        Bench {
            chip: Chip::fresh(&[0; FACTORY_LEN], &mut array).expect("a part"),
            array,
        }
    }

    fn number(&mut self, date: Date) -> Option<u32> {
        let ymd = [date.year, date.month, date.day];
        let (array, mut log) = (&mut self.array, [0; log_len::put(1)]);
        let mut run = Run::new(&mut log);
        array[..11].fill(0x77);
        let put = (self.chip).put_ymd(array, 0, 1, ymd, ymd, b"salt", &mut run);
        let mut buffer = [0; Part::Short.recipe_max()];
        let get = self.chip.get_ymd(array, 0, 1, ymd, &mut buffer, &mut run);
        if put == Err(Error::Dates) {
            assert_eq!(get, Err(Error::Dates), "{}", text(date));
            assert_eq!(array[..11], [0x77; 11], "{}", text(date));
            return None;
        }
        assert_eq!(put, Ok(()), "{}", text(date));
        assert_eq!(get, Ok(&b"salt"[..]), "{}", text(date));
        let (head, days) = array[..11].split_at(3);
        assert_eq!(head, [2, 0, 4]);
        assert_eq!(days[..4], days[4..]);
        let number = <[u8; 4]>::try_from(&days[..4]).expect("four bytes");
        Some(u32::from_be_bytes(number))
    }
}

#[test]
fn library_has_the_days_of_date() {
    let (numbers, mut bench) = (numbers_by_date("library-dates.txt"), Bench::new());
    assert_eq!(first_difference(&numbers, |date| bench.number(date)), None);
}

#[test]
fn model_has_the_days_of_date() {
    let numbers = numbers_by_date("model-dates.txt");
    assert_eq!(first_difference(&numbers, Date::number), None);
}

/// Calendars that are wrong, and the first date that shows it.
#[test]
fn wrong_calendars_are_noticed() {
    let wrong: [(&str, fn(Date) -> Option<u32>); 8] = [
        ("2100-02-29", leap_2100),
        ("2000-02-29", no_leap_2000),
        ("2000-01-01", |it| it.number().map(|number| number + 1)),
        ("2001-01-01", |it| it.number().map(|number| number % 366)),
        ("2179-06-07", |it| it.number().map(|number| number % 65_536)),
        ("2000-02-30", long_february),
        ("1999-12-31", |it| match it {
            Date { year: 1999, .. } => (it.month == 12 && it.day == 31).then(|| 0),
            _ => it.number(),
        }),
        ("2200-01-01", |it| match it {
            Date { year: 2200, .. } => (it.month == 1 && it.day == 1).then(|| 73_049),
            _ => it.number(),
        }),
    ];
    let numbers = numbers_by_date("wrong-dates.txt");
    for (first, calendar) in wrong {
        let difference = first_difference(&numbers, calendar).expect("a difference");
        assert!(difference.starts_with(first), "{first}: {difference}");
    }
}

fn leap_2100(date: Date) -> Option<u32> {
    match (date.year, date.month, date.day) {
        (2100, 2, 29) => Some(36_584),
        it if it > (2100, 2, 29) => date.number().map(|number| number + 1),
        _ => date.number(),
    }
}

fn no_leap_2000(date: Date) -> Option<u32> {
    match (date.year, date.month, date.day) {
        (2000, 2, 29) => None,
        it if it > (2000, 2, 29) => date.number().map(|number| number - 1),
        _ => date.number(),
    }
}

fn long_february(date: Date) -> Option<u32> {
    match (date.month, date.day) {
        (2, 30) => Date::new(date.year, 3, 1).number(),
        _ => date.number(),
    }
}
