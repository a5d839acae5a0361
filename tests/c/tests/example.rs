//! The C example is built with the machine's C compiler and run; what it must
//! print was worked out by hand from docs/SPECIFICATION.md.

use std::path::Path;
use std::process::Command;

/// An undisturbed put has 43 frames, 17 of them polls, and a get 9 with one poll
/// (14.15); a slot of FFh holds no record, which a get answers with 12 (9.9).
///
/// The season of 2026 is over on 16 November: 15.
///
/// The driver's get sends 2 + 8 * 272 = 2,178 bytes. In its put each page is
/// polled twice after 83 and after 60: 2 + 20 + 20 + 8 * (268 + 2 * (4 + 2 + 2)) =
/// 2,314 bytes in 3 + 8 * 7 = 59 frames, for either recipe. Pages of 256 bytes take
/// 64 less.
fn output(page: u32, driver_get: u32, driver_put: u32, longest: u32) -> String {
    format!(
        "\
pages of {page} bytes
call get: answer 12, frames 9, polls 1
call put: answer 0, frames 43, polls 17
call get: answer 0, frames 9, polls 1
recipe: salt
driver get: answer 0, frames 9, bytes on the wire {driver_get}
recipe: salt
driver put: answer 0, frames 59, bytes on the wire {driver_put}
driver put: answer 0, frames 59, bytes on the wire {driver_put}
call get: answer 0, frames 9, polls 1
recipe: {longest} bytes, as put
call put_term: answer 0, frames 43, polls 17
call get: answer 15, frames 9, polls 1
driver get: answer 15, frames 9, bytes on the wire {driver_get}
"
    )
}

#[test]
fn c_example_prints_what_it_must() {
    let root = Path::new(env!("CARGO_MANIFEST_DIR")).join("../..");
    let program = Path::new(env!("CARGO_TARGET_TMPDIR")).join("recipes");
    let built = Command::new("cc")
        .args(["-std=c99", "-Wall", "-Wextra", "-pedantic", "-Werror"])
        .arg("-I")
        .arg(root.join("include"))
        .arg("-o")
        .arg(&program)
        .arg(root.join("examples/c/recipes.c"))
        .arg(root.join("target/staticlib/libslipknoll.a"))
        .status()
        .expect("a C compiler");
    assert!(built.success(), "cc: {built}");

    let run = Command::new(&program).output().expect("the example runs");
    let output = String::from_utf8_lossy(&run.stdout);
    let expected = self::output(264, 2178, 2314, 2109) + &self::output(256, 2114, 2250, 2045);
    assert_eq!(output, expected);
    assert!(run.status.success(), "recipes: {}", run.status);
}
