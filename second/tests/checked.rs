//! `examples/station.c` under valgrind and under the compiler's sanitizers, where they are at hand:
//! no access that they find wrong, and the same output.
#![cfg(feature = "library")]

use std::env;
use std::path::{Path, PathBuf};
use std::process::{Command, Output};

const EXPECTED: &str = include_str!("../examples/station.out");
/// The status by which both tools say that they found something.
const FOUND: &str = "99";

fn home() -> PathBuf {
    PathBuf::from(env!("CARGO_MANIFEST_DIR"))
}

/// The archive that the crate `wuthracomb` is linked with.
fn archive() -> PathBuf {
    let given = env::var_os("WUTHRACOMB_LIB_DIR").map(PathBuf::from);
    let folder = given.unwrap_or_else(|| home().join("../target/staticlib"));
    let names = ["libwuthracomb.a", "libstation.a"].map(|name| folder.join(name));
    names.into_iter().find(|library| library.is_file()).expect("the library")
}

/// Whether the compiler made this program.
fn compiled(source: &Path, flags: &[&str], program: &Path) -> bool {
    let compiler = env::var_os("CC").unwrap_or("cc".into());
    let mut command = Command::new(compiler);
    command.args(["-g", "-std=c99", "-I"]).arg(home().join("../include")).args(flags);
    command.arg(source).arg(archive()).arg("-o").arg(program);
    command.output().is_ok_and(|output| output.status.success())
}

/// A folder of its own for a test.
fn scratch(name: &str) -> PathBuf {
    let folder = env::temp_dir().join(format!("wuthracomb-{}-{name}", std::process::id()));
    std::fs::create_dir_all(&folder).unwrap();
    folder
}

/// Runs the C example as `run` does, or says why not; a program that does nothing has to pass first.
fn check(tool: &str, flags: &[&str], run: impl Fn(&Path) -> Option<Output>) {
    let folder = scratch(tool);
    let (nothing, program) = (folder.join("nothing"), folder.join("station"));
    std::fs::write(folder.join("nothing.c"), "int main(void) { return 0; }\n").unwrap();
    let passes = compiled(&folder.join("nothing.c"), flags, &nothing)
        && run(&nothing).is_some_and(|output| output.status.success());
    if passes {
        assert!(compiled(&home().join("examples/station.c"), flags, &program), "{tool}");
        let output = run(&program).expect("it ran before");
        let said = String::from_utf8_lossy(&output.stderr);
        assert!(output.status.success(), "{tool}: {} {said}", output.status);
        assert_eq!(String::from_utf8_lossy(&output.stdout), EXPECTED, "{tool}");
    } else {
        println!("{tool} is not at hand");
    }
    std::fs::remove_dir_all(folder).unwrap();
}

#[test]
fn valgrind_finds_nothing() {
    check("valgrind", &[], |program| {
        let code = format!("--error-exitcode={FOUND}");
        Command::new("valgrind").args(["--quiet", &code]).arg(program).output().ok()
    });
}

#[test]
fn sanitizers_find_nothing() {
    check("sanitizers", &["-fsanitize=address,undefined", "-fno-sanitize-recover"], |program| {
        let code = format!("exitcode={FOUND}:detect_leaks=0");
        Command::new(program).env("ASAN_OPTIONS", code).output().ok()
    });
}
