//! Links the library's archive: the one that BOLTRAVEN_LIB names, or the one in this package's own `lib/`, or that of the repository, which
//! `bindings/archive` builds, proved, where a source is newer.

use std::path::{Path, PathBuf};
use std::process::Command;
use std::{env, fs};

/// What can be done where there is no archive.
const HINT: &str = "BOLTRAVEN_LIB may name an archive that is already built, libboltraven_c.a, which needs no proving";

fn main() {
    println!("cargo:rerun-if-env-changed=BOLTRAVEN_LIB");
    let processor = env::var("CARGO_CFG_TARGET_ARCH").unwrap_or_default();
    if processor != "x86_64" {
        stop(&format!(
            "the library is for x86-64 Linux, not for {processor}: build with --target x86_64-unknown-linux-gnu, as bindings/cargo does"
        ));
    }
    let here = PathBuf::from(env::var_os("CARGO_MANIFEST_DIR").unwrap_or_default());
    let packed = here.join("lib/libboltraven_c.a");
    let archive = match env::var_os("BOLTRAVEN_LIB") {
        Some(path) => PathBuf::from(path),
        None if packed.is_file() => packed,
        None => built(&here),
    };
    // A copy under the name that the linker looks for, whatever the archive is called.
    let out = PathBuf::from(env::var_os("OUT_DIR").unwrap_or_default());
    if let Err(error) = fs::copy(&archive, out.join("libboltraven_c.a")) {
        stop(&format!("the archive {} can't be read ({error}); {HINT}", archive.display()));
    }
    println!("cargo:rerun-if-changed={}", archive.display());
    println!("cargo:rustc-link-search=native={}", out.display());
    println!("cargo:rustc-link-lib=static=boltraven_c");
}

/// The archive of the repository that this package stands in, which is asked for again where a source changes.
fn built(here: &Path) -> PathBuf {
    let archive = match Command::new(here.join("../archive")).output() {
        Ok(done) if done.status.success() => PathBuf::from(String::from_utf8_lossy(&done.stdout).trim_end()),
        Ok(done) => stop(&format!("{}{HINT}", String::from_utf8_lossy(&done.stderr))),
        Err(error) => stop(&format!("bindings/archive can't be run ({error}); {HINT}")),
    };
    for source in ["../../crates", "../../crates.txt"] {
        println!("cargo:rerun-if-changed={}", here.join(source).display());
    }
    archive
}

/// Ends the build with what is wrong.
fn stop(why: &str) -> ! {
    eprintln!("boltraven: {why}");
    std::process::exit(1)
}
