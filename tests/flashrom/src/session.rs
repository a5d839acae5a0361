//! What flashrom is made to do, and what must come of it.
//!
//! When flashrom has written, read or erased, the lent array is compared byte
//! for byte with what it must hold, whatever flashrom says.

use crate::bridge::{Bridge, FRAME_MAX};
use crate::client::{self, Run};
use crate::image::{self, compare};
use crate::slots;
use conformance::Rng;
use slipknoll::{Date, Error, Term};
use std::ffi::OsStr;
use std::fmt;
use std::fs;
use std::path::{Path, PathBuf};
use std::time::Instant;

/// The erases that flashrom knows, in the order in which it tries them: page,
/// block, sector, chip.
pub const ERASES: [u8; 4] = [0x81, 0x50, 0x7C, 0xC7];

/// The numbers of a season's days, 1 May to 31 October 2026, by `date` of coreutils.
const SEASON_DAYS: [u32; 2] = [9_617, 9_800];

fn season() -> Term {
    Term::new(date(2026, 5, 1), date(2026, 10, 31)).expect("a term")
}

fn date(year: u32, month: u32, day: u32) -> Date {
    Date::new(year, month, day).expect("a date")
}

/// What flashrom is made to do.
#[derive(Clone, Copy, Debug, PartialEq, Eq)]
pub enum Step {
    /// Finds the chip by its name.
    Probe,
    /// Writes an image to an erased array.
    Write,
    /// Reads that image.
    Read,
    /// Verifies that image.
    Verify,
    /// Writes another image over what is there, by this one of `ERASES`.
    Overwrite(usize),
    /// Erases the whole part.
    Erase,
    /// Reads recipes that the slot driver has put into an erased array.
    Put,
    /// Writes recipes into slots, which the slot driver gets.
    Get,
}

/// Every step, for a fresh chip.
pub const ALL: [Step; 11] = [
    Step::Probe,
    Step::Write,
    Step::Read,
    Step::Verify,
    Step::Overwrite(0),
    Step::Overwrite(1),
    Step::Overwrite(2),
    Step::Overwrite(3),
    Step::Erase,
    Step::Put,
    Step::Get,
];

/// The step that went wrong, and how.
#[derive(Debug)]
pub struct Failure {
    pub step: Step,
    pub why: String,
}

impl fmt::Display for Failure {
    fn fmt(&self, f: &mut fmt::Formatter) -> fmt::Result {
        write!(f, "{:?}: {}", self.step, self.why)
    }
}

/// A bridge that flashrom uses again and again, and a directory for its files.
pub struct Session<'b, 'a> {
    pub bridge: &'b mut Bridge<'a>,
    directory: PathBuf,
}

impl<'b, 'a> Session<'b, 'a> {
    /// Makes the directory, which nothing else may use.
    pub fn new(bridge: &'b mut Bridge<'a>, directory: PathBuf) -> Session<'b, 'a> {
        fs::create_dir_all(&directory).expect("a directory for flashrom's files");
        Session { bridge, directory }
    }

    /// Takes one step after the other, up to the first that goes wrong.
    pub fn run(&mut self, steps: &[Step]) -> Result<(), Failure> {
        for &step in steps {
            let start = Instant::now();
            self.take(step).map_err(|why| Failure { step, why })?;
            println!("{step:?}: {} ms", start.elapsed().as_millis());
        }
        Ok(())
    }

    fn take(&mut self, step: Step) -> Result<(), String> {
        let part = self.bridge.part;
        match step {
            Step::Probe => self.probe(),
            Step::Write => self.write_fresh(&image::written(part)),
            Step::Read => self.read(&image::written(part)),
            Step::Verify => self.verify(&image::written(part)),
            Step::Overwrite(erase) => self.overwrite(&image::overwritten(part, erase), erase),
            Step::Erase => self.erase(),
            Step::Put => self.put(),
            Step::Get => self.get(),
        }
    }

    /// flashrom finds the chip by its name, with 4,096 pages of 264 or 256 bytes:
    /// which of them, it reads in the status.
    fn probe(&mut self) -> Result<(), String> {
        let part = self.bridge.part;
        let run = self.flashrom(&["-VV".as_ref()])?;
        says(&run, &format!("page size {} B", part.page_len()))?;
        let size = part.array_len() / 1024;
        let found = format!("Found Atmel flash chip \"AT45DB081D\" ({size} kB, SPI) on serprog.");
        says(&run, &found)?;
        says(&run, "No Sector is locked.")?;
        let run = self.flashrom(&["--flash-size".as_ref()])?;
        says(&run, &format!("\n{}\n", part.array_len()))
    }

    /// Writes an image to an erased array: each page that it programs once,
    /// and nothing erased.
    fn write_fresh(&mut self, image: &[u8]) -> Result<(), String> {
        let run = self.write(image)?;
        let programmed = image::programmed_pages(self.bridge.part, image);
        counts(&run, &[(0x84, programmed), (0x88, programmed)])?;
        counts(&run, &ERASES.map(|erase| (erase, 0)))
    }

    /// Writes an image with the erases that flashrom would try before this one
    /// withheld; it must make do with this.
    fn overwrite(&mut self, image: &[u8], erase: usize) -> Result<(), String> {
        self.bridge.withheld = ERASES[..erase].to_vec();
        let run = self.write(image)?;
        self.bridge.withheld.clear();
        for (i, opcode) in ERASES.into_iter().enumerate() {
            let count = run.traffic.count(opcode);
            if (count > 0) != (i == erase) {
                return Err(format!("frames {opcode:02X}: {count}"));
            }
        }
        Ok(())
    }

    /// Writes an image; the array must then hold it.
    pub fn write(&mut self, image: &[u8]) -> Result<Run, String> {
        let path = self.save("image.bin", image)?;
        let run = self.flashrom(&["-w".as_ref(), path.as_ref()])?;
        says(&run, "VERIFIED")?;
        compare("the array", self.bridge.array(), image)?;
        Ok(run)
    }

    /// Reads the whole part, by frames of the greatest length.
    fn read(&mut self, image: &[u8]) -> Result<(), String> {
        let path = self.directory.join("read.bin");
        let run = self.flashrom(&["-r".as_ref(), path.as_ref()])?;
        compare("flashrom's copy", &take_file(&path)?, image)?;
        compare("the array", self.bridge.array(), image)?;
        let reads = image.chunks(self.bridge.data_max).count() as u64;
        counts(&run, &[(0x03, reads)])?;
        match run.traffic.longest {
            FRAME_MAX => Ok(()),
            longest => Err(format!("the longest frame has {longest} bytes")),
        }
    }

    fn verify(&mut self, image: &[u8]) -> Result<(), String> {
        let path = self.save("image.bin", image)?;
        let run = self.flashrom(&["-v".as_ref(), path.as_ref()])?;
        says(&run, "VERIFIED")
    }

    /// Erases the whole part, page by page.
    fn erase(&mut self) -> Result<(), String> {
        let run = self.flashrom(&["-E".as_ref()])?;
        let part = self.bridge.part;
        let erased = vec![0xFF; part.array_len()];
        compare("the array", self.bridge.array(), &erased)?;
        counts(&run, &[(0x81, part.pages() as u64)])
    }

    /// Recipes that are put in slots are found there by flashrom, alone and in
    /// a copy of everything.
    fn put(&mut self) -> Result<(), String> {
        let part = self.bridge.part;
        let mut expected = self.bridge.array().to_vec();
        let mut rng = Rng::new(9);
        // The first slot, one that is put twice, the last; and two with a term.
        for (slot, len, term) in [
            (0, 2, false),
            (300, part.recipe_max(), false),
            (300, 0, false),
            (511, 700, false),
            (40, 2, true),
            (41, part.term_recipe_max(), true),
        ] {
            let mut recipe = vec![0; len];
            rng.fill(&mut recipe);
            let result = self.bridge.put(slot, term.then(season), &recipe);
            result.map_err(|error| format!("put into slot {slot}: {error}"))?;
            let stored = slots::stored(part, term.then(|| SEASON_DAYS), &recipe);
            expected[slot * part.slot_len()..][..part.slot_len()].copy_from_slice(&stored);
            compare(&format!("slot {slot}"), &self.read_slot(slot)?, &stored)?;
        }
        self.read(&expected)
    }

    /// Recipes that flashrom writes into slots are read by a get, those with a term
    /// on its days alone; a slot that it leaves erased is blank.
    fn get(&mut self) -> Result<(), String> {
        let part = self.bridge.part;
        let mut image = self.bridge.array().to_vec();
        let mut slots: Vec<&mut [u8]> = image.chunks_mut(part.slot_len()).collect();
        let mut rng = Rng::new(10);
        let recipes = [
            (5, 2, None),
            (299, part.recipe_max(), None),
            (510, 0, None),
            (20, 300, Some(SEASON_DAYS)),
            (21, part.term_recipe_max(), Some(SEASON_DAYS)),
        ];
        let recipes = recipes.map(|(slot, len, days)| {
            let mut recipe = vec![0; len];
            rng.fill(&mut recipe);
            slots[slot].copy_from_slice(&slots::stored(part, days, &recipe));
            (slot, days, recipe)
        });
        slots[4].fill(0xFF);
        self.write(&image)?;
        for (slot, days, recipe) in recipes {
            // The day before the season, its first, its last, the day after.
            let season = season();
            let outside = match days {
                Some(_) => Err(Error::Term),
                None => Ok(recipe.clone()),
            };
            self.gets(slot, date(2026, 4, 30), &outside)?;
            self.gets(slot, season.first(), &Ok(recipe.clone()))?;
            self.gets(slot, season.last(), &Ok(recipe))?;
            self.gets(slot, date(2026, 11, 1), &outside)?;
        }
        self.gets(4, season().first(), &Err(Error::Blank))?;
        compare("the array", self.bridge.array(), &image)
    }

    /// A get of the slot comes to what is expected.
    fn gets(
        &mut self,
        slot: usize,
        today: Date,
        expected: &Result<Vec<u8>, Error>,
    ) -> Result<(), String> {
        let got = self.bridge.get(slot, today);
        if got != *expected {
            let shown = got.map(|recipe| recipe.len());
            return Err(format!("get of slot {slot}: {shown:?}"));
        }
        Ok(())
    }

    /// Has flashrom read one slot, by a layout that says where it lies.
    fn read_slot(&mut self, slot: usize) -> Result<Vec<u8>, String> {
        let len = self.bridge.part.slot_len();
        let (begin, end) = (slot * len, (slot + 1) * len);
        let line = format!("{begin:x}:{:x} slot\n", end - 1);
        let layout = self.save("layout.txt", line.as_bytes())?;
        let file = self.directory.join("slot.bin");
        self.flashrom(&[
            "-l".as_ref(),
            layout.as_ref(),
            "-i".as_ref(),
            format!("slot:{}", file.display()).as_ref(),
            "-r".as_ref(),
            self.directory.join("read.bin").as_ref(),
        ])?;
        take_file(&file)
    }

    /// Runs flashrom, which must be content; no frame may be refused.
    pub fn flashrom(&mut self, arguments: &[&OsStr]) -> Result<Run, String> {
        let run = client::run(self.bridge, &self.directory, arguments)?;
        println!("flashrom {arguments:?}: {}", run.traffic);
        if !run.status.success() {
            let (status, output) = (run.status, run.output);
            return Err(format!("flashrom ends with {status}:\n{output}"));
        }
        match run.traffic.refused {
            0 => Ok(run),
            refused => Err(format!("refused frames: {refused}")),
        }
    }

    fn save(&self, name: &str, bytes: &[u8]) -> Result<PathBuf, String> {
        let path = self.directory.join(name);
        fs::write(&path, bytes).map_err(|error| format!("{}: {error}", path.display()))?;
        Ok(path)
    }
}

/// Reads and removes a file, so that it is never taken for a later one.
fn take_file(path: &Path) -> Result<Vec<u8>, String> {
    let bytes = fs::read(path).and_then(|bytes| fs::remove_file(path).map(|()| bytes));
    bytes.map_err(|error| format!("{}: {error}", path.display()))
}

/// flashrom must have said this.
pub fn says(run: &Run, words: &str) -> Result<(), String> {
    match run.output.contains(words) {
        true => Ok(()),
        false => Err(format!("flashrom does not say {words:?}:\n{}", run.output)),
    }
}

/// These opcodes must have been sent so many times.
fn counts(run: &Run, expected: &[(u8, u64)]) -> Result<(), String> {
    for &(opcode, expected) in expected {
        let count = run.traffic.count(opcode);
        if count != expected {
            return Err(format!("frames {opcode:02X}: {count}, not {expected}"));
        }
    }
    Ok(())
}
