//! Makes the static library by the repository's `./staticlib`, or takes the one in the folder that CULLPETHI_LIB names, and links it.
use std::env;
use std::fs::{self, File, OpenOptions};
use std::io::{BufRead, BufReader, IsTerminal, Write};
use std::os::unix::fs::{FileTypeExt, OpenOptionsExt};
use std::path::{Path, PathBuf};
use std::process::{exit, Command, Stdio};

const LIBRARY: &str = "libcullpethi.a";

fn main() {
    println!("cargo:rerun-if-env-changed=CULLPETHI_LIB");
    let target = ["CARGO_CFG_TARGET_ARCH", "CARGO_CFG_TARGET_OS"].map(|of| env::var(of).unwrap());
    if target != ["x86_64", "linux"] {
        stop("the library is for x86-64 Linux only");
    }
    let folder = env::var_os("CULLPETHI_LIB").map_or_else(built, |folder| given(folder.into()));
    println!("cargo:rustc-link-search=native={}", folder.display());
    println!("cargo:rustc-link-lib=static=cullpethi");
}

fn stop(why: &str) -> ! {
    eprintln!("cullpethi: {why}");
    exit(1)
}

/// The folder with a library that was built elsewhere.
fn given(folder: PathBuf) -> PathBuf {
    let library = folder.join(LIBRARY);
    println!("cargo:rerun-if-changed={}", library.display());
    if !folder.is_absolute() || !library.is_file() {
        stop(&format!(
            "CULLPETHI_LIB must be the full path of a folder with {LIBRARY}, and is {}",
            folder.display()
        ));
    }
    folder
}

/// Builds the library in the repository that this crate stands in, and keeps a copy for this crate: `rt` writes its own file anew each
/// time, so that cargo, if it watched that one, would build each time.
fn built() -> PathBuf {
    let repository = Path::new(&env::var_os("CARGO_MANIFEST_DIR").unwrap()).join("../..");
    println!("cargo:rerun-if-env-changed=RATTLE_HOME");
    println!(
        "cargo:rerun-if-changed={}",
        repository.join("crates.txt").display()
    );
    for part in sources(&repository) {
        println!("cargo:rerun-if-changed={}", part.display());
    }
    proved(&repository);
    let folder = PathBuf::from(env::var_os("OUT_DIR").unwrap());
    let library = repository.join("target/staticlib").join(LIBRARY);
    if let Err(e) = fs::copy(&library, folder.join(LIBRARY)) {
        stop(&format!("{} cannot be copied: {e}", library.display()));
    }
    folder
}

/// The folders that the library is made of: not `out`, which `rt` writes.
fn sources(repository: &Path) -> Vec<PathBuf> {
    let crates = fs::read_dir(repository.join("crates"))
        .into_iter()
        .flatten()
        .flatten();
    let parts = crates.flat_map(|of| ["src", "specs", "proofs"].map(|part| of.path().join(part)));
    parts.filter(|part| part.is_dir()).collect()
}

/// Runs `./staticlib`, and shows each crate as it is proved, which it says on stderr.
fn proved(repository: &Path) {
    let mut shown = Shown::new();
    shown.line("`./staticlib` proves the library; the first time takes some minutes");
    let made = Command::new(repository.join("staticlib"))
        .stderr(Stdio::piped())
        .spawn();
    let mut made = made.unwrap_or_else(|e| {
        stop(&format!(
            "`./staticlib` does not start ({e}). Without `rt`, of the Rattle toolchain, build {LIBRARY} elsewhere and set CULLPETHI_LIB to its folder"
        ))
    });
    for line in BufReader::new(made.stderr.take().unwrap()).lines() {
        let line = line.unwrap_or_default();
        if line.ends_with(" proved") {
            shown.line(&line);
        } else {
            eprintln!("{line}");
        }
    }
    if !made.wait().is_ok_and(|status| status.success()) {
        stop("`./staticlib` failed, see above");
    }
}

/// Cargo's own stderr, since cargo holds back what a build script prints until it ends, and repeats a warning at each later build.
struct Shown(Option<File>);

impl Shown {
    /// A terminal or a pipe is opened anew; in a file, cargo's next line would overwrite what is written here.
    fn new() -> Self {
        // With O_NONBLOCK, so that a pipe whose reader has gone does not make the build wait.
        const O_NONBLOCK: i32 = 0o4000;
        let path = format!("/proc/{}/fd/2", std::os::unix::process::parent_id());
        let kind = fs::metadata(&path).map(|of| of.file_type());
        let open = kind.is_ok_and(|kind| kind.is_char_device() || kind.is_fifo());
        let options = || {
            OpenOptions::new()
                .append(true)
                .custom_flags(O_NONBLOCK)
                .open(path)
        };
        Shown(open.then(options).and_then(Result::ok))
    }

    /// Writes a line as cargo does; on a terminal, in place of its progress bar. What cannot be shown is no reason to stop.
    fn line(&mut self, text: &str) {
        eprintln!("{text}");
        if let Some(file) = &mut self.0 {
            let begin = if file.is_terminal() { "\r\x1B[K" } else { "" };
            let _ = file.write_all(format!("{begin}   cullpethi {text}\n").as_bytes());
        }
    }
}
