//! `include/omdurgash.h` as C and as C++, with the library linked: `rust/c_check/check.c` and `include/example.c` built and run.
use std::path::Path;
use std::process::{Command, Output};
use vectors::{of_repository, say};

/// The programs, each with what it must print.
const PROGRAMS: [(&str, &str); 2] = [("rust/c_check/check.c", CHECKED), ("include/example.c", EXAMPLE)];

/// "8b": its two numbers, its cells 3456, 125, 5, 12, what they are read as, and its two signs. "1.b". "3⁄4", where U+2044 goes with the 4. The empty
/// print. Then rows: 46-1-46-12; one with a byte that is no cell; the empty one without room; "ab" with room for one; a step past the end.
const CHECKED: &str = "\
0 4
60 19 16 3
read 0 2
38 62
step 0 to 2: 1 38 0
step 2 to 4: 1 62 0
5 2
0 3
60 18 25
read 0 3
33 2044 34
step 0 to 2: 1 33 0
step 2 to 3: 2 2044 34
0 0

read 0 0

read 8 0
step 0 to 0: no 8 0
read 7 1
step 0 to 0: no 7 1
0 0
6 2
0 0 7
";

const EXAMPLE: &str = "\
cells ⠼⠓⠐⠃
text 8b
sign at 0: ⠼⠓ 8
sign at 2: ⠐⠃ b
no 5 2: it would share its cells with other print; the second number is the place
";

fn succeeded(what: &str, output: &Output) {
    assert!(output.status.success(), "{what}: {}\n{}", output.status, String::from_utf8_lossy(&output.stderr));
}

/// Builds each program with a compiler and its words, and holds what it prints to the wanted text.
fn check_with(compiler: &str, words: &[&str]) {
    for (source, wanted) in PROGRAMS {
        check_one(compiler, words, source, wanted);
    }
}

fn check_one(compiler: &str, words: &[&str], source: &str, wanted: &str) {
    let stem = Path::new(source).file_stem().expect("a source file has a name").to_string_lossy();
    let program = Path::new(env!("CARGO_TARGET_TMPDIR")).join(format!("{stem}-{compiler}"));
    let mut build = Command::new(compiler);
    build.args(words).args(["-Wall", "-Wextra", "-pedantic", "-Werror", "-I"]).arg(of_repository("include"));
    build.arg(of_repository(source));
    // What stands before may have told the compiler that every file is C++.
    build.args(["-x", "none"]).arg(of_repository("target/staticlib/libdesk.a")).arg("-o").arg(&program);
    match build.output() {
        Ok(output) => succeeded(&format!("{source} with {compiler}"), &output),
        Err(error) => return say(&format!("NOT TESTED: {source} with {compiler}, which cannot be run here: {error}")),
    }
    let output = Command::new(&program).output().expect("the program can be run");
    succeeded(source, &output);
    assert_eq!(String::from_utf8_lossy(&output.stdout), wanted, "{source}");
}

#[test]
fn header_in_c() {
    check_with("cc", &["-std=c99"]);
}

#[test]
fn header_in_cpp() {
    check_with("c++", &["-std=c++11", "-x", "c++"]);
}
