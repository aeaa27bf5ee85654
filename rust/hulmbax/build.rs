// Finds libhulmbax.a, or has c/archive prove and build it, and tells cargo to link it.
use std::env;
use std::fs::{self, OpenOptions};
use std::io::{self, Write};
use std::path::{Path, PathBuf};
use std::process::{exit, Command};
use std::time::{Instant, SystemTime};

const ARCHIVE: &str = "libhulmbax.a";

/// The script that builds it, from the top of the repository.
const SCRIPT: &str = "c/archive";

/// Where it leaves it.
const BUILT: &str = "target/staticlib/libhulmbax.a";

/// What it reads of a crate. What it writes is in the crate's folder too, beside these.
const SOURCES: [&str; 3] = ["src", "specs", "proofs"];

/// Its exit status where there is no `rt` on the path.
const NO_RT: i32 = 127;

fn main() {
    println!("cargo:rerun-if-changed=build.rs");
    println!("cargo:rerun-if-env-changed=HULMBAX_LIB");
    x86_64_linux_only();
    let archive = match env::var_os("HULMBAX_LIB").filter(|path| !path.is_empty()) {
        Some(path) => prebuilt(Path::new(&path)),
        None => built(&repository()),
    };
    link(&archive);
}

// The archive holds x86-64 code for Linux.
fn x86_64_linux_only() {
    let arch = env::var("CARGO_CFG_TARGET_ARCH").unwrap_or_default();
    let os = env::var("CARGO_CFG_TARGET_OS").unwrap_or_default();
    if arch != "x86_64" || os != "linux" {
        stop(&format!(
            "{ARCHIVE} is built for x86-64 Linux only, and the target is {arch} {os}"
        ));
    }
}

// The archive that HULMBAX_LIB names, or the one in the folder that it names.
fn prebuilt(path: &Path) -> PathBuf {
    let archive = if path.is_dir() {
        path.join(ARCHIVE)
    } else {
        path.to_path_buf()
    };
    println!("cargo:rerun-if-changed={}", archive.display());
    if !archive.is_file() {
        stop(&format!(
            "HULMBAX_LIB is {}, and there is no file {}",
            path.display(),
            archive.display()
        ));
    }
    archive
}

// The archive of the repository, which the script builds unless it is newer than every source.
fn built(repository: &Path) -> PathBuf {
    let sources = match sources(repository) {
        Ok(sources) => sources,
        Err(e) => stop(&format!("the folder of the crates could not be read: {e}")),
    };
    for source in &sources {
        println!("cargo:rerun-if-changed={}", source.display());
    }
    let archive = repository.join(BUILT);
    let is_new = |made| sources.iter().all(|source| is_older(source, made));
    if !modified(&archive).is_ok_and(is_new) {
        prove(repository);
    }
    archive
}

// The script, the list of the crates, and the folders that it reads of each.
fn sources(repository: &Path) -> io::Result<Vec<PathBuf>> {
    let mut sources = vec![repository.join(SCRIPT), repository.join("crates.txt")];
    for entry in fs::read_dir(repository.join("crates"))? {
        let folder = entry?.path();
        let parts = SOURCES.map(|part| folder.join(part));
        sources.extend(parts.into_iter().filter(|part| part.is_dir()));
    }
    Ok(sources)
}

fn modified(path: &Path) -> io::Result<SystemTime> {
    fs::metadata(path)?.modified()
}

// Whether the file, or the folder with all that is in it, was changed before that time. A folder
// changes when a file is removed from it.
fn is_older(path: &Path, time: SystemTime) -> bool {
    let older = |path: &Path| -> io::Result<bool> {
        if modified(path)? >= time {
            return Ok(false);
        }
        if !path.is_dir() {
            return Ok(true);
        }
        let entries: Vec<_> = fs::read_dir(path)?.collect::<io::Result<_>>()?;
        Ok(entries.iter().all(|entry| is_older(&entry.path(), time)))
    };
    older(path).unwrap_or(false)
}

// Runs the script. What it prints goes where cargo keeps it: it is shown by `cargo build -vv`, and
// after a failure.
fn prove(repository: &Path) {
    announce(&format!(
        "{SCRIPT} runs; the first time it proves every crate, for minutes"
    ));
    let start = Instant::now();
    let run = Command::new(repository.join(SCRIPT))
        .stdout(io::stderr())
        .status();
    match run {
        Err(e) => stop(&format!("{SCRIPT} could not be started: {e}")),
        Ok(status) if status.code() == Some(NO_RT) => stop(&format!(
            "there is no program `rt` on the path to build {ARCHIVE} with. Install the Rattle \
             toolchain, or set HULMBAX_LIB to a built {ARCHIVE} or to the folder that holds it"
        )),
        Ok(status) if !status.success() => stop(&format!(
            "{SCRIPT} failed in {}: {status}",
            repository.display()
        )),
        Ok(_) => println!(
            "cargo:warning={SCRIPT} built {ARCHIVE} in {} s; the first time it proves every \
             crate, for minutes. HULMBAX_LIB takes a built one",
            start.elapsed().as_secs()
        ),
    }
}

// Cargo shows a warning only once this program has ended, so what is to be read while one waits
// goes to the terminal, if there is one.
fn announce(line: &str) {
    if let Ok(mut terminal) = OpenOptions::new().write(true).open("/dev/tty") {
        let _ = writeln!(terminal, "\rhulmbax: {line}");
    }
}

// The top of the repository is two folders above this crate.
fn repository() -> PathBuf {
    let crate_folder = PathBuf::from(env::var_os("CARGO_MANIFEST_DIR").expect("cargo sets it"));
    let top = crate_folder.join("../..");
    if !top.join("crates.txt").is_file() {
        stop(&format!(
            "{} is not the repository of Hulmbax (it has no crates.txt), so {ARCHIVE} can't be \
             built there. Set HULMBAX_LIB to a built {ARCHIVE} or to the folder that holds it",
            top.display()
        ));
    }
    top
}

// Links a copy, which stays when the repository's target/ is removed.
fn link(archive: &Path) {
    let out = PathBuf::from(env::var_os("OUT_DIR").expect("cargo sets it"));
    if let Err(e) = fs::copy(archive, out.join(ARCHIVE)) {
        stop(&format!("{} could not be copied: {e}", archive.display()));
    }
    println!("cargo:rustc-link-search=native={}", out.display());
    println!("cargo:rustc-link-lib=static=hulmbax");
}

fn stop(why: &str) -> ! {
    eprintln!("hulmbax: {why}");
    exit(1)
}
