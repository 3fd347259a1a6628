//! The header as C reads it: a C program over include/sedge.h and the static library, compiled and run.

use std::path::Path;
use std::process::Command;

/// By hand, on hill network H with battery 1,000: a road file one byte short is refused with 2; from 900 the route
/// 0, 1, 3 arrives with 100 and leaves the list's last two entries; 699 is refused with 10 and 700, to junction 2 99
/// with 10 and 100, a battery of 899 with 16 and the way back with 17, and the list stays; road 1 from a full battery
/// spills 500; its profile needs 0, has the sum -500 and tops at 1,000; to depot 2 the van sets off with 100 at 0, with
/// 0 at 1, and from 3 no road leads there.
const WRITTEN: &str = "\
2 0
0 0 3 100 1200 500 100: 0 1 3 7 7
10 700 0 0 0 0 0: 7 7 7 7 7
10 100 0 0 0 0 0: 7 7 7 7 7
16 0 0 0 0 0 0: 7 7 7 7 7
17 0 0 0 0 0 0: 7 7 7 7 7
0 0 1000 0 500 500
0 0 0 -500 1000
0 0: 100 0 0 -1 7
";

#[test]
fn a_c_program_over_the_header_gets_the_numbers() {
    let here = Path::new(env!("CARGO_MANIFEST_DIR"));
    let program = Path::new(env!("CARGO_TARGET_TMPDIR")).join("boundary");
    let compiled = Command::new("cc")
        .args(["-std=c99", "-Wall", "-Wextra", "-Werror", "-pedantic", "-I"])
        .arg(here.join("../include"))
        .arg("-o")
        .arg(&program)
        .arg(here.join("tests/boundary.c"))
        .arg(here.join("../crates/sedge/out/libsedge.a"))
        .output()
        .expect("cc, a C compiler, is on the path");
    assert!(compiled.status.success(), "{}", String::from_utf8_lossy(&compiled.stderr));
    let run = Command::new(&program).output().expect("the program was built");
    assert!(run.status.success() && run.stderr.is_empty(), "{run:?}");
    assert_eq!(String::from_utf8_lossy(&run.stdout), WRITTEN);
}
