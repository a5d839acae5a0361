//! The driver over an exchange function does what the calls on the chip do.

use slipknoll::{
    log_len, Chip, Date, DriveError, Driver, Error, Level, Line, Part, Run, Term, FACTORY_LEN,
};

const SLOT: usize = 15;
const POLL_LIMIT: usize = 3;

fn date(year: u32, month: u32, day: u32) -> Date {
    Date::new(year, month, day).expect("a date")
}

fn today() -> Date {
    date(2026, 11, 16)
}

/// A chip with its array, and the outlines of the frames exchanged.
#[derive(Clone, PartialEq, Debug)]
struct Bench {
    chip: Chip,
    array: Vec<u8>,
    outline: Vec<Line>,
}

impl Bench {
    fn new(part: Part) -> Bench {
        let mut array = vec![0; part.array_len()];
        Bench {
            chip: Chip::fresh(&[0; FACTORY_LEN], &mut array).expect("a part"),
            array,
            outline: Vec::new(),
        }
    }

    /// One frame, at whose end the chip is ready.
    fn exchange(&mut self, frame: &[u8], reply: &mut [u8]) -> Result<(), Error> {
        let mut first = [0xFF; 4];
        let len = frame.len();
        first[..len.min(4)].copy_from_slice(&frame[..len.min(4)]);
        self.outline.push(Line { len, first });
        self.chip.send(&self.array, frame, reply)?;
        self.chip.end_busy(&mut self.array)
    }

    /// Runs a driver to its end; the answer and what a get has read.
    fn drive(&mut self, mut driver: Driver) -> (Result<(), Error>, Vec<u8>) {
        self.outline.clear();
        let result = driver.run(|frame, reply| self.exchange(frame, reply));
        let result = result.map_err(|error| match error {
            DriveError::Call(error) => error,
            DriveError::Link(error) => panic!("a frame was refused: {error}"),
        });
        assert_eq!(driver.answer(), Some(result));
        assert_eq!(driver.frame(), None);
        (result, driver.recipe().unwrap_or_default().to_vec())
    }

    /// Makes a call on the chip itself.
    fn call(
        &mut self,
        call: impl FnOnce(&mut Chip, &mut [u8], &mut Run) -> Result<Vec<u8>, Error>,
    ) -> (Result<(), Error>, Vec<u8>) {
        let mut log = [0; log_len::patch(POLL_LIMIT)];
        let mut run = Run::new(&mut log);
        let result = call(&mut self.chip, &mut self.array, &mut run);
        self.outline = run.outline().collect();
        let recipe = result.clone().unwrap_or_default();
        (result.map(|_| ()), recipe)
    }
}

/// Makes the four calls in both ways; they must do the same.
fn compare(bench: &Bench, term: Option<Term>, recipe: &[u8], place: usize, bytes: &[u8]) {
    let part = Part::from_array_len(bench.array.len()).expect("a part");
    let (mut driven, mut called) = (bench.clone(), bench.clone());
    let mut buffer = vec![0; part.recipe_max()];

    let put = Driver::put(part, SLOT, POLL_LIMIT, term, recipe).expect("a put");
    let put = driven.drive(put);
    let expected = called.call(|chip, array, run| {
        chip.put(array, SLOT, POLL_LIMIT, term, recipe, run)?;
        Ok(Vec::new())
    });
    assert_eq!(put, expected);
    assert!(driven == called);

    let patch = Driver::patch(part, SLOT, POLL_LIMIT, place, bytes).expect("a patch");
    let patch = driven.drive(patch);
    let expected = called.call(|chip, array, run| {
        chip.patch(array, SLOT, POLL_LIMIT, place, bytes, run)?;
        Ok(Vec::new())
    });
    assert_eq!(patch, expected);
    assert!(driven == called);

    let get = Driver::get(part, SLOT, POLL_LIMIT, today()).expect("a get");
    let get = driven.drive(get);
    let expected = called.call(|chip, array, run| {
        let recipe = chip.get(array, SLOT, POLL_LIMIT, today(), &mut buffer, run)?;
        Ok(recipe.to_vec())
    });
    assert_eq!(get, expected);
    assert!(driven == called);

    let wipe = driven.drive(Driver::wipe(part, SLOT, POLL_LIMIT).expect("a wipe"));
    let expected = called.call(|chip, array, run| {
        chip.wipe(array, SLOT, POLL_LIMIT, run)?;
        Ok(Vec::new())
    });
    assert_eq!(wipe, expected);
    assert!(driven == called);
}

#[test]
fn driven_as_called() {
    for part in Part::ALL {
        let bench = Bench::new(part);
        let most = part.recipe_max();
        compare(&bench, None, b"salt", 0, b"m");
        compare(&bench, None, b"", 0, b"");
        compare(&bench, None, &vec![0x5A; most], most - 109, &[0xA5; 109]);
        // A patch beyond the end.
        compare(&bench, None, b"salt", 3, b"ed");
    }
}

/// With terms that today is inside and outside of.
#[test]
fn driven_as_called_with_a_term() {
    let (new_year, october) = (date(2026, 1, 1), date(2026, 10, 31));
    for part in Part::ALL {
        let bench = Bench::new(part);
        let most = part.term_recipe_max();
        for last in [today(), october] {
            let term = Some(Term::new(new_year, last).expect("a term"));
            compare(&bench, term, b"salt", 0, b"m");
            compare(&bench, term, b"", 0, b"");
            compare(&bench, term, &vec![0x5A; most], most - 109, &[0xA5; 109]);
            compare(&bench, term, b"salt", 3, b"ed");
        }
    }
}

/// What a recipe with a term holds, and when it is read.
#[test]
fn terms_are_kept() {
    for part in Part::ALL {
        let mut bench = Bench::new(part);
        let (first, last) = (date(2096, 2, 29), date(2100, 3, 1));
        let term = Some(Term::new(first, last).expect("a term"));
        let put = Driver::put(part, SLOT, POLL_LIMIT, term, b"salt").expect("a put");
        assert_eq!(bench.drive(put).0, Ok(()));
        // Days 35,123 (8933h) and 36,584 (8EE8h), by `date` of coreutils.
        let slot = &bench.array[SLOT * part.slot_len()..][..16];
        let head = [2, 0, 4, 0, 0, 0x89, 0x33, 0, 0, 0x8E, 0xE8];
        assert_eq!((&slot[..11], &slot[11..15]), (&head[..], &b"salt"[..]));
        for (today, expected) in [
            (date(2096, 2, 28), Err(Error::Term)),
            (first, Ok(())),
            (date(2100, 2, 28), Ok(())),
            (last, Ok(())),
            (date(2100, 3, 2), Err(Error::Term)),
        ] {
            let get = Driver::get(part, SLOT, POLL_LIMIT, today).expect("a get");
            let read = if expected.is_ok() { &b"salt"[..] } else { b"" };
            assert_eq!(bench.drive(get), (expected, read.to_vec()), "{today}");
        }
    }
}

/// Dates that are none: by the constructors, and by the calls that take numbers.
#[test]
fn refused_dates() {
    const HUGE: u32 = u32::MAX;
    let part = Part::Short;
    let mut bench = Bench::new(part);
    let fresh = bench.clone();
    let good = [2026, 11, 16];
    for bad in [
        [2100, 2, 29],
        [2026, 2, 30],
        [2026, 0, 1],
        [2026, 13, 1],
        [2026, 1, 0],
        [2026, 1, HUGE],
        [1999, 12, 31],
        [2200, 1, 1],
        [0, 1, 1],
        [HUGE, 1, 1],
        [HUGE, HUGE, HUGE],
    ] {
        assert_eq!(Date::new(bad[0], bad[1], bad[2]), Err(Error::Dates));
        let get = Driver::get_ymd(part, 0, 1, bad);
        assert_eq!(get.err(), Some(Error::Dates));
        for [first, last] in [[bad, good], [good, bad]] {
            let put = Driver::put_ymd(part, 0, 1, first, last, b"salt");
            assert_eq!(put.err(), Some(Error::Dates));
            let called = bench.call(|chip, array, run| {
                chip.put_ymd(array, 0, 1, first, last, b"salt", run)?;
                Ok(Vec::new())
            });
            assert_eq!(called.0, Err(Error::Dates));
        }
        let called = bench.call(|chip, array, run| {
            let mut buffer = vec![0x5A; part.recipe_max()];
            let read = chip.get_ymd(array, 0, 1, bad, &mut buffer, run);
            let read = read.map(<[u8]>::to_vec);
            assert!(buffer.iter().all(|&byte| byte == 0x5A));
            read
        });
        assert_eq!(called.0, Err(Error::Dates));
    }
    assert!(bench == fresh);
    // The first after the last.
    let (first, last) = (date(2026, 11, 17), today());
    assert_eq!(Term::new(first, last), Err(Error::Dates));
    let put = Driver::put_ymd(part, 0, 1, first.ymd(), last.ymd(), b"salt");
    assert_eq!(put.err(), Some(Error::Dates));
    assert!(Driver::put_ymd(part, 0, 1, last.ymd(), last.ymd(), b"salt").is_ok());
    // Numbers of a date do what the date does.
    assert!(Driver::get_ymd(part, 0, 1, good).is_ok());
    assert_eq!(today().ymd(), good);
    assert_eq!([today().year(), today().month(), today().day()], good);
}

/// What stands against a call is met alike: a sealed sector, a deep chip.
#[test]
fn errors_as_called() {
    for part in [Part::Short, Part::Short256] {
        errors_on(part);
    }
}

fn errors_on(part: Part) {
    let mut sealed = Bench::new(part);
    let mut reply = [0; 4];
    for frame in [[0x3D, 0x2A, 0x7F, 0xCF], [0x3D, 0x2A, 0x7F, 0xA9]] {
        sealed.exchange(&frame, &mut reply).expect("a frame");
    }
    compare(&sealed, None, b"salt", 0, b"m");
    let put = Driver::put(part, SLOT, POLL_LIMIT, None, b"salt").expect("a put");
    assert_eq!(sealed.drive(put).0, Err(Error::Sealed));
    assert_eq!(sealed.outline.len(), 3);

    // The mark off, the pin low: sealed as before.
    let unmark = [0x3D, 0x2A, 0x7F, 0x9A];
    sealed.exchange(&unmark, &mut reply).expect("a frame");
    let wipe = Driver::wipe(part, SLOT, POLL_LIMIT).expect("a wipe");
    assert_eq!(sealed.drive(wipe.clone()).0, Ok(()));
    sealed.chip.move_pin(Level::Low);
    assert_eq!(sealed.drive(wipe).0, Err(Error::Sealed));

    let mut deep = Bench::new(part);
    deep.exchange(&[0xB9], &mut [0]).expect("a frame");
    compare(&deep, None, b"salt", 0, b"m");
    let get = Driver::get(part, SLOT, POLL_LIMIT, today()).expect("a get");
    assert_eq!(deep.drive(get).0, Err(Error::Chip));

    let mut fresh = Bench::new(part);
    let get = Driver::get(part, SLOT, POLL_LIMIT, today()).expect("a get");
    assert_eq!(fresh.drive(get), (Err(Error::Blank), Vec::new()));
}

/// A chip that one 83 does not reach: it gets a frame that it ignores.
struct Lossy {
    bench: Bench,
    /// 83s so far, and which of them, from 1 on, is lost.
    programs: usize,
    lost: usize,
}

impl Lossy {
    fn exchange(&mut self, frame: &[u8], reply: &mut [u8]) -> Result<(), Error> {
        self.programs += usize::from(frame[0] == 0x83);
        if frame[0] == 0x83 && self.programs == self.lost {
            return self.bench.exchange(&[0x00; 4], reply);
        }
        self.bench.exchange(frame, reply)
    }
}

/// A page that kept what it had is told at the end; the others have been programmed.
#[test]
fn lost_program_is_told() {
    for part in Part::ALL {
        let mut bench = Bench::new(part);
        let most = part.recipe_max();
        let (old, new) = (vec![0x5A; most], vec![0xA5; most]);
        let put = |recipe| Driver::put(part, SLOT, POLL_LIMIT, None, recipe).expect("a put");
        let patch = || Driver::patch(part, SLOT, POLL_LIMIT, 0, &new).expect("a patch");
        assert_eq!(bench.drive(put(&new)).0, Ok(()));
        let slot = SLOT * part.slot_len()..(SLOT + 1) * part.slot_len();
        let stored = bench.array[slot.clone()].to_vec();
        assert_eq!(bench.drive(put(&old)).0, Ok(()));
        let (first, page) = (bench.array[slot.clone()].to_vec(), part.page_len());
        for lost in 0..8 {
            for (mut driver, frames) in [(put(&new), 43), (patch(), 51)] {
                bench.outline.clear();
                let mut lossy = Lossy {
                    bench: bench.clone(),
                    programs: 0,
                    lost: lost + 1,
                };
                let told = driver.run(|frame, reply| lossy.exchange(frame, reply));
                assert_eq!(told, Err(DriveError::Call(Error::Miscompare)));
                assert_eq!(lossy.bench.outline.len(), frames);
                let mut expected = stored.clone();
                let kept = lost * page..(lost + 1) * page;
                expected[kept.clone()].copy_from_slice(&first[kept]);
                assert!(lossy.bench.array[slot.clone()] == expected, "page {lost}");
            }
        }
    }
}

/// A chip that is never ready is asked as often as the limit allows.
#[test]
fn busy() {
    let mut polls = 0;
    let mut wipe = Driver::wipe(Part::Full, 511, 1000).expect("a wipe");
    let result = wipe.run(|frame, reply| {
        assert_eq!(frame, [0xD7, 0x00]);
        polls += 1;
        reply.fill(0x24);
        Ok::<(), ()>(())
    });
    assert_eq!((result, polls), (Err(DriveError::Call(Error::Busy)), 1000));
}

/// The exchange's own error comes through, and the driver stands where it was.
#[test]
fn lost_link() {
    let mut put = Driver::put(Part::Full, 0, 1, None, b"salt").expect("a put");
    let result = put.run(|_, _| Err("no link"));
    assert_eq!(result, Err(DriveError::Link("no link")));
    assert_eq!(put.frame(), Some(&[0xD7, 0x00][..]));
    assert_eq!(put.answer(), None);
    // A reply that was lost whole: no status.
    put.take(&[]);
    assert_eq!(put.answer(), Some(Err(Error::Chip)));
}

#[test]
fn refused_starts() {
    let error = |driver: Result<Driver, Error>| driver.err();
    for (part, slots, most) in [(Part::Short, 16, 2109), (Part::Full256, 512, 2045)] {
        assert_eq!(error(Driver::wipe(part, slots, 1)), Some(Error::Slot));
        assert_eq!(error(Driver::get(part, 0, 0, today())), Some(Error::Limit));
        let get = Driver::get(part, 0, 1001, today());
        assert_eq!(error(get), Some(Error::Limit));
        let long = vec![0; most + 1];
        let put = Driver::put(part, 0, 1, None, &long);
        assert_eq!(error(put), Some(Error::Size));
        let patch = Driver::patch(part, 0, 1, usize::MAX, &[1]);
        assert_eq!(error(patch), Some(Error::Size));
        let patch = Driver::patch(part, 0, 1, most, &[1]);
        assert_eq!(error(patch), Some(Error::Size));
        assert_eq!(error(Driver::put(part, 0, 1, None, &long[1..])), None);
        // Eight bytes less with a term.
        let term = Some(Term::new(today(), today()).expect("a term"));
        let put = Driver::put(part, 0, 1, term, &long[8..]);
        assert_eq!(error(put), Some(Error::Size));
        let put = Driver::put(part, 0, 1, term, &long[9..]);
        assert_eq!(error(put), None);
    }
}
