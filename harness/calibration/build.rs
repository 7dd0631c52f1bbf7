//! Links the archive that `rt lib` writes in crates/calibration, or the one that CALIBRATION_ARCHIVE names.

use std::{
    env, fs,
    path::{Path, PathBuf},
};

fn main() {
    println!("cargo::rerun-if-env-changed=CALIBRATION_ARCHIVE");
    let archive = archive();
    println!("cargo::rerun-if-changed={}", archive.display());

    // A copy under the name the linker looks for, so that CALIBRATION_ARCHIVE may have any name.
    let out = PathBuf::from(variable("OUT_DIR"));
    let bytes = fs::read(&archive).unwrap_or_else(|error| missing(&archive, &error));
    fs::write(out.join("libcalibration.a"), bytes).expect("the build folder can be written");
    println!("cargo::rustc-link-search=native={}", out.display());
    println!("cargo::rustc-link-lib=static=calibration");
}

fn archive() -> PathBuf {
    match env::var_os("CALIBRATION_ARCHIVE") {
        Some(path) => path.into(),
        None => Path::new(&variable("CARGO_MANIFEST_DIR"))
            .join("../../crates/calibration/out/libcalibration.a"),
    }
}

fn variable(name: &str) -> std::ffi::OsString {
    env::var_os(name).expect("cargo sets it")
}

fn missing(archive: &Path, error: &std::io::Error) -> ! {
    println!(
        "cargo::error=no archive at {} ({error}): run `rt lib` in crates/calibration, or name one in \
         CALIBRATION_ARCHIVE",
        archive.display()
    );
    std::process::exit(1)
}
