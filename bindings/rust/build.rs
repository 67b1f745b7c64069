//! Finds the folder of libaggen.a. It is the first of these that has the file: the value of AGGEN_LIB_DIR; out/library in the
//! repository of this package, if it is of these sources; the folder of the installed library, if pkg-config knows one; and a
//! folder to which tools/library unpacks the library of dist/.

use std::env;
use std::path::{Path, PathBuf};
use std::process::Command;

/// Returns the folder if it has libaggen.a.
fn with_archive(folder: PathBuf) -> Option<PathBuf> {
    folder.join("libaggen.a").is_file().then_some(folder)
}

/// Returns the folder of the library in out/, if that is of these sources.
fn built(top: &Path) -> Option<PathBuf> {
    let library = top.join("out/library");
    let kept = std::fs::read(library.join("sources")).ok()?;
    let sources = Command::new(top.join("tools/library")).arg("--sources").output().ok()?.stdout;
    (kept == sources).then(|| library.join("lib")).and_then(with_archive)
}

/// Returns the folder of the installed library, if pkg-config knows one.
fn installed() -> Option<PathBuf> {
    let output = Command::new("pkg-config").args(["--variable=prefix", "aggen"]).output().ok()?;
    let prefix = String::from_utf8(output.stdout).ok()?;
    with_archive(Path::new(prefix.trim_end()).join("lib"))
}

/// Has tools/library unpack the library of dist/ to a folder of this build, and returns its folder of archives.
fn unpacked(top: &Path) -> Option<PathBuf> {
    let copy = PathBuf::from(env::var_os("OUT_DIR")?).join("library");
    let status = Command::new(top.join("tools/library")).arg("--unpack").arg(&copy).status().ok()?;
    status.success().then(|| copy.join("lib")).and_then(with_archive)
}

fn main() {
    let top = Path::new(env!("CARGO_MANIFEST_DIR")).join("../..");
    println!("cargo:rerun-if-env-changed=AGGEN_LIB_DIR");
    println!("cargo:rerun-if-env-changed=PKG_CONFIG_PATH");
    println!("cargo:rerun-if-changed={}", top.join("out/library").display());
    println!("cargo:rerun-if-changed={}", top.join("dist/manifest").display());
    let folder = match env::var_os("AGGEN_LIB_DIR") {
        Some(folder) => with_archive(PathBuf::from(folder)).expect("the folder AGGEN_LIB_DIR has no libaggen.a"),
        None => built(&top).or_else(installed).or_else(|| unpacked(&top)).expect(
            "libaggen.a is missing: set AGGEN_LIB_DIR to its folder, install it where pkg-config finds it, or run tools/library",
        ),
    };
    println!("cargo:rustc-link-search=native={}", folder.display());
}
