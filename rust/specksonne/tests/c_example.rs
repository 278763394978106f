//! The C header and programs over it: they compile without a warning, as C and as C++, say what
//! they should, and do not link where the header is of another ABI number than the library.

use specksonne::ffi;
use std::path::{Path, PathBuf};
use std::process::{Command, Output};
use std::{env, fs};

const WARNINGS: [&str; 4] = ["-Wall", "-Wextra", "-Wpedantic", "-Werror"];
const LANGUAGES: [&[&str]; 3] =
    [&["-x", "c", "-std=c99"], &["-x", "c", "-std=c11"], &["-x", "c++", "-std=c++11"]];

fn root() -> PathBuf {
    Path::new(env!("CARGO_MANIFEST_DIR")).join("../..")
}

fn library() -> PathBuf {
    env::var_os("SPECKSONNE_LIB_DIR")
        .map_or(root().join("crates/specksonne/out"), PathBuf::from)
        .join("libspecksonne.a")
}

/// An empty folder for one test's files.
fn folder(name: &str) -> PathBuf {
    let folder = Path::new(env!("CARGO_TARGET_TMPDIR")).join(name);
    let _ = fs::remove_dir_all(&folder);
    fs::create_dir_all(&folder).unwrap();
    folder
}

/// The machine's C compilers: `cc`, and `clang` where it is there.
fn compilers() -> Vec<&'static str> {
    let is_there = |name: &&str| Command::new(name).arg("--version").output().is_ok();
    [Some("cc"), Some("clang").filter(is_there)].into_iter().flatten().collect()
}

fn output(command: &mut Command) -> Output {
    command.output().unwrap_or_else(|error| panic!("{command:?}: {error}"))
}

fn run(command: &mut Command) -> Output {
    let output = output(command);
    let said = [&*output.stdout, &*output.stderr].concat();
    assert!(output.status.success(), "{command:?}: {}", String::from_utf8_lossy(&said));
    output
}

/// The command that makes a program of one file, with the header of a folder.
fn link(compiler: &str, source: &Path, header: &Path, program: &Path) -> Command {
    let mut command = Command::new(compiler);
    command.arg("-I").arg(header).args(WARNINGS).arg("-o").arg(program);
    command.arg(source).arg(library());
    command
}

#[test]
fn the_example_compiles_and_runs() {
    let folder = folder("example");
    let program = folder.join("example");
    for compiler in compilers() {
        run(link(compiler, &root().join("c/example.c"), &folder, &program).arg("-std=c99"));
        let said = run(&mut Command::new(&program)).stdout;
        let expected = "policy 5\nadd 5\nssh 2: 7 50 300\nike 0\nike by the file's rows 1\n";
        assert_eq!(String::from_utf8_lossy(&said), expected);
    }
}

#[test]
fn header_and_example_without_a_warning() {
    for file in ["c/specksonne.h", "c/example.c"] {
        for (compiler, language) in
            compilers().iter().flat_map(|compiler| LANGUAGES.map(|language| (compiler, language)))
        {
            let mut command = Command::new(compiler);
            command.args(language).args(WARNINGS).args(["-O2", "-fsyntax-only"]);
            run(command.arg(root().join(file)));
        }
    }
}

#[test]
fn the_header_is_true_of_the_library() {
    let source = Path::new(env!("CARGO_MANIFEST_DIR")).join("tests/c/edges.c");
    let program = folder("edges").join("edges");
    for compiler in compilers() {
        run(link(compiler, &source, &root().join("c"), &program).arg("-std=c99"));
        run(&mut Command::new(&program));
    }
}

/// A program that includes the header and calls nothing, and flags that take unused data out.
const IDLE: &str = "#include \"specksonne.h\"\nint main(void) { return 0; }\n";
const STRIPPED: [&str; 4] = ["-O2", "-ffunction-sections", "-fdata-sections", "-Wl,--gc-sections"];

/// Whether a program links whose header has this ABI number, and what was said.
fn links(compiler: &str, number: u64, flags: &[&str]) -> (bool, String) {
    let folder = folder(&format!("abi-{compiler}-{number}"));
    let header = fs::read_to_string(root().join("c/specksonne.h")).unwrap();
    let own = format!("specksonne_abi_{}", ffi::ABI);
    assert!(header.contains(&own));
    let header = header.replace(&own, &format!("specksonne_abi_{number}"));
    fs::write(folder.join("specksonne.h"), header).unwrap();
    let source = folder.join("idle.c");
    fs::write(&source, IDLE).unwrap();
    let output = output(link(compiler, &source, &folder, &folder.join("idle")).args(flags));
    (output.status.success(), String::from_utf8_lossy(&output.stderr).into_owned())
}

#[test]
fn a_header_of_another_number_does_not_link() {
    let own = ffi::ABI;
    for compiler in compilers() {
        for flags in [&[] as &[&str], &STRIPPED] {
            let (linked, said) = links(compiler, own, flags);
            assert!(linked, "{compiler}: {said}");
            for other in [own - 1, own + 1] {
                let (linked, said) = links(compiler, other, flags);
                let symbol = format!("specksonne_abi_{other}");
                assert!(!linked && said.contains(&symbol), "{compiler}: {said}");
            }
        }
    }
}
