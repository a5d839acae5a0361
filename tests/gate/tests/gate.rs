//! The gate itself, over a small repository with tools that only pretend: it
//! passes there, and fails wherever a tool says something else.

use std::fs;
use std::os::unix::fs::PermissionsExt;
use std::path::PathBuf;
use std::process::Command;
use std::thread;

use gate_tests::files::{names, root};

const PINS: &str =
    "crates 3\nfunctions 3\nfunctions_proved 4\nedits 1\nrust_tests 1\nrust_examples 1\nrust_left_out 0\n\
    axioms_of_outline 2: libc::read, libc::write\naxioms_of_library none\n";

const RT: &str = "#!/bin/sh
case \"$*\" in
ci) mkdir -p crates/outline/out && cp \"$0\" crates/outline/out/outline && cat said.ci ;;
'check --list-axioms') cat ../../said.check ;;
'lib --list-axioms') mkdir -p out && cp \"$0\" out/libslipknoll_c.a && cat ../../said.lib ;;
esac
";

const CARGO: &str = "#!/bin/sh
case \"$*\" in
'test --offline --locked --workspace') cat said.test ;;
esac
";

const CI: &str = "== one
logic=proved functions=1 sum=0 native=nat
rt: one proved
== slipknoll_c
axioms libc: none reached of the 50 declared
logic=proved functions=1 target=here sum=0 native=nat
rt: slipknoll_c proved
== outline
axioms libc: libc::read, libc::write (2 of the 50 declared)
logic=proved functions=2 axioms=2 target=here sum=0 native=nat
rt: outline proved
rt: must-fail one/slip.edit: refused, as it must be: note: src/lib.rt:1:1: it is not proved
rt: outline ran, and wrote what its file stdout has
rt: ok; handles allowed: none; must-fail edits: 1 refused; every proof and must-fail edit was done in this run
4 passed, 0 failed
";

/// The same where an earlier run had done it all.
const KEPT: &str = "\
rt: one is kept: an earlier run on this machine proved the same files over the same libraries
rt: slipknoll_c is kept: an earlier run on this machine proved the same files over the same libraries
rt: outline is kept: an earlier run on this machine proved the same files over the same libraries
rt: one: 1 of its 1 must-fail edits were tried by an earlier run on this machine, and nothing that they stand on has changed
rt: must-fail one/slip.edit: refused, as it must be: note: src/lib.rt:1:1: it is not proved
rt: outline ran, and wrote what its file stdout has
rt: ok; handles allowed: none; must-fail edits: 1 refused; done in this run: 0 of the 3 proofs and 0 of the 1 must-fail edits
4 passed, 0 failed
";

const CHECK: &str = "logic=proved functions=1 sum=0 native=nat
axioms libc: 2 reached of the 50 declared
  libc::close
  libc::read   reached
  libc::write   reached
logic=proved functions=2 axioms=2 target=here sum=0 native=nat
";

const LIB: &str = "axioms libc: none reached of the 50 declared
  libc::read
logic=proved functions=1 target=here sum=0 native=nat
";

/// What one has in its library: its only function.
const LISTED: &str = "[[\"one::f\",{\"types\":[]}]]";

const TEST: &str = "     Running tests/one.rs (one)
test result: ok. 1 passed; 0 failed; 0 ignored; 0 measured; 0 filtered out; finished in 0 s
   Doc-tests one
test result: ok. 1 passed; 0 failed; 0 ignored; 0 measured; 0 filtered out; finished in 0 s
";

/// A small repository with the scripts of this one, and tools that pretend. It
/// stands apart from this one, where rt ci would meet its crates.txt.
struct Sham(PathBuf);

impl Sham {
    fn new(name: &str) -> Sham {
        let folder = format!("slipknoll-gate-{}-{name}", std::process::id());
        let sham = Sham(std::env::temp_dir().join(folder));
        for name in names("scripts") {
            let script = root().join("scripts").join(&name);
            let text = fs::read_to_string(script).expect("a script");
            sham.tool(&format!("scripts/{name}"), &text);
        }
        sham.tool("bin/rt", RT);
        sham.tool("bin/cargo", CARGO);
        // Nothing is ever installed by these tests.
        sham.tool("bin/apt-get", "#!/bin/sh\nexit 1\n");
        for name in ["rustc", "cargo-fmt", "cc", "g++", "flashrom"] {
            sham.tool(&format!("bin/{name}"), "#!/bin/sh\n");
        }
        let files = [
            (
                "crates.txt",
                "# one\none:\nslipknoll_c staticlib: one\noutline: one\n",
            ),
            ("crates/one/src/lib.rt", "pub fn f() {}\n"),
            ("crates/one/must-fail/slip.edit", ""),
            ("crates/one/out/rlib/one.rlib/toolchain/mir.json", LISTED),
            (
                "crates/slipknoll_c/src/lib.rt",
                "pub extern \"C\" fn f() {}\n",
            ),
            ("crates/outline/src/main.rt", "fn main() {}\n"),
            ("model/one.rs", "#[test]\n"),
            ("bindings/none.rs", ""),
            ("benches/none.rs", ""),
            ("tests/counts.txt", PINS),
            ("said.ci", CI),
            ("said.check", CHECK),
            ("said.lib", LIB),
            ("said.test", TEST),
        ];
        for (file, text) in files {
            sham.write(file, text);
        }
        sham
    }

    fn write(&self, file: &str, text: &str) {
        let path = self.0.join(file);
        let directory = path.parent().expect("a directory");
        fs::create_dir_all(directory).expect("a directory made");
        fs::write(&path, text).expect("a file written");
    }

    fn tool(&self, file: &str, text: &str) {
        self.write(file, text);
        let mode = fs::Permissions::from_mode(0o755);
        fs::set_permissions(self.0.join(file), mode).expect("a program");
    }

    /// Whether the gate passes, and its last line.
    fn gate(&self) -> (bool, String) {
        let path = std::env::var("PATH").expect("a path");
        let output = Command::new("bash")
            .arg(self.0.join("scripts/test"))
            .env_clear()
            .env("PATH", format!("{}/bin:{path}", self.0.display()))
            .output()
            .expect("bash runs");
        let said = String::from_utf8_lossy(&output.stdout).into_owned();
        let last = said.lines().last().unwrap_or("").to_string();
        (output.status.success(), last)
    }

    /// That the gate fails with these words once a text stands in another's
    /// place in a file.
    fn fails(&self, (file, old, new, due): Fault) {
        let text = fs::read_to_string(self.0.join(file)).expect("a file");
        assert!(text.contains(old), "{file}: {old}");
        self.write(file, &text.replacen(old, new, 1));
        let (passed, last) = self.gate();
        let begins = last.starts_with(&format!("failed: {due}"));
        assert!(!passed && begins, "{file}: {new}: {last}");
    }
}

impl Drop for Sham {
    fn drop(&mut self) {
        let _ = fs::remove_dir_all(&self.0);
    }
}

/// That the gate fails at each fault, side by side; where `ci` is given, rt ci
/// says that.
fn all_fail(name: &str, ci: Option<&str>, faults: &[Fault]) {
    thread::scope(|scope| {
        for (at, fault) in faults.iter().enumerate() {
            scope.spawn(move || {
                let sham = Sham::new(&format!("{name}-{at}"));
                if let Some(ci) = ci {
                    sham.write("said.ci", ci);
                }
                sham.fails(*fault);
            });
        }
    });
}

/// A file, a text in another's place, and the gate's last line then.
type Fault = (&'static str, &'static str, &'static str, &'static str);

const LAST: &str = "6 passed, 0 failed";

#[test]
fn passes_and_says_how_many() {
    assert_eq!(Sham::new("passes").gate(), (true, LAST.to_string()));
}

/// Program and library are where README.md says.
#[test]
fn builds_what_the_tests_need() {
    let sham = Sham::new("builds");
    assert!(sham.gate().0);
    for file in ["target/bin/outline", "target/staticlib/libslipknoll.a"] {
        assert!(sham.0.join(file).is_file(), "{file}");
    }
}

#[test]
fn passes_where_all_is_kept() {
    let sham = Sham::new("kept");
    sham.write("said.ci", KEPT);
    assert_eq!(sham.gate(), (true, LAST.to_string()));
}

const FAULTS: [Fault; 24] = [
    (
        "bin/g++",
        "sh\n",
        "sh\nexit 1\n",
        "could not be installed: g++",
    ),
    ("bin/cargo", "in\n", "in\nfmt*) exit 1 ;;\n", "cargo fmt"),
    (
        "bin/cargo",
        "in\n",
        "in\n*gate-tests) exit 1 ;;\n",
        "documents and gate",
    ),
    ("bin/rt", "cat said.ci", "cat said.ci; exit 1", "rt ci"),
    // A plain rt ci, and no other.
    (
        "scripts/test",
        "\"rt ci\" rt ci",
        "\"rt ci\" rt ci one",
        "rt ci has not said",
    ),
    (
        "bin/rt",
        "cp \"$0\" crates/outline/out/outline",
        "true",
        "rt has not built crates/outline/out/outline",
    ),
    (
        "said.ci",
        "4 passed, 0 failed",
        "4 passed",
        "rt ci did not end",
    ),
    (
        "said.ci",
        "1 refused;",
        "1 refused, 1 bad;",
        "rt ci met bad must-fail edits",
    ),
    (
        "said.ci",
        "1 refused;",
        "1 refused, 1 of them only by a limit, 2 bad;",
        "rt ci met bad must-fail edits",
    ),
    (
        "said.ci",
        "rt: ok;",
        "rt: fine;",
        "rt ci has not said 'rt: ok'",
    ),
    ("said.ci", "1 refused;", "0 refused;", "a count has moved"),
    (
        "said.ci",
        "edit: refused, as it must be",
        "edit: BAD EDIT",
        "a count has moved",
    ),
    ("said.ci", "rt: one proved\n", "", "a count has moved"),
    (
        "said.ci",
        "functions=1 sum",
        "functions=2 sum",
        "one: rt ci proved 2 functions, and what was built of it has 1",
    ),
    (
        "crates/one/out/rlib/one.rlib/toolchain/mir.json",
        LISTED,
        "[]",
        "one: rt ci proved 1 functions, and what was built of it has 0",
    ),
    (
        "said.check",
        "functions=2",
        "functions=3",
        "outline: rt ci proved 2 functions, and what was built of it has 3",
    ),
    ("bin/rt", "cat ../../said.check", "exit 1", "rt check"),
    (
        "said.check",
        "libc::close\n",
        "libc::close   reached\n",
        "a count has moved",
    ),
    ("said.check", "axioms=2", "axioms=3", "a count has moved"),
    ("bin/rt", "cat ../../said.lib", "exit 1", "rt lib"),
    ("bin/rt", "cp \"$0\" out/libslipknoll_c.a", "true", "rt lib"),
    (
        "said.lib",
        "target=here",
        "axioms=1 target=here",
        "a count has moved",
    ),
    (
        "bin/cargo",
        "cat said.test",
        "cat said.test; exit 1",
        "cargo test",
    ),
    ("said.test", "0 ignored", "1 ignored", "a count has moved"),
];

#[test]
fn fails_wherever_a_part_does() {
    all_fail("part", None, &FAULTS);
}

/// What the files have is looked at before anything is proved.
#[test]
fn fails_where_the_files_have_changed() {
    let faults = [
        ("model/one.rs", "#[test]", "// #[test]", "counts"),
        ("crates.txt", "outline: one\n", "", "counts"),
        ("crates/one/src/lib.rt", "pub fn f() {}\n", "", "counts"),
    ];
    all_fail("files", None, &faults);
}

/// The same where an earlier run had done it all, so that rt ci says little.
#[test]
fn fails_where_all_is_kept() {
    let library = "crates/one/out/rlib/one.rlib/toolchain/mir.json";
    let faults = [
        (
            "said.ci",
            "1 refused;",
            "1 refused, 1 bad;",
            "rt ci met bad must-fail edits",
        ),
        ("said.ci", "rt: one is kept", "rt: one", "a count has moved"),
        (
            library,
            LISTED,
            "[]",
            "one: its files have more functions than were proved, 0",
        ),
        (library, "[[", "[[],[", "a count has moved"),
        (
            library,
            LISTED,
            "",
            "one: nothing says how many functions were proved",
        ),
        (
            "said.lib",
            "functions=1",
            "functions=2",
            "a count has moved",
        ),
        (
            "said.check",
            "functions=2",
            "functions=3",
            "a count has moved",
        ),
    ];
    all_fail("kept", Some(KEPT), &faults);
}
