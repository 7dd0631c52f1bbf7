//! Takes the crate's three files, unchanged, from the folder that DEOXYS_SRC names.
//!
//! They go to the build folder, because lib.rs asks for a README.md in the folder above its own, which
//! needn't be there. Without DEOXYS_SRC the package is built all the same, without the crate.

use std::{
    env, fs,
    path::{Path, PathBuf},
};

const FILES: [&str; 3] = ["lib.rs", "deoxys_bc.rs", "modes.rs"];

fn main() {
    println!("cargo::rustc-check-cfg=cfg(crate_given)");
    println!("cargo::rustc-check-cfg=cfg(feature, values(any()))"); // the crate's; none of them is on
    println!("cargo::rerun-if-changed=build.rs");
    println!("cargo::rerun-if-env-changed=DEOXYS_SRC");
    let out = PathBuf::from(env::var_os("OUT_DIR").expect("cargo sets it"));
    let folder = env::var_os("DEOXYS_SRC").unwrap_or_default();
    if !folder.is_empty() {
        take_files(Path::new(&folder), &out);
        println!("cargo::rustc-cfg=crate_given");
    }
}

fn take_files(folder: &Path, out: &Path) {
    let source = out.join("crate/src");
    fs::create_dir_all(&source).expect("the build folder can be written");
    for file in FILES {
        let path = folder.join(file);
        println!("cargo::rerun-if-changed={}", path.display());
        let text = fs::read(&path).unwrap_or_else(|error| missing(&path, &error));
        write(&source.join(file), &text);
    }
    write(&out.join("crate/README.md"), b"");
    write(&out.join("given.rs"), b"#[path = \"crate/src/lib.rs\"]\npub mod deoxys;\n");
}

fn missing(path: &Path, error: &std::io::Error) -> ! {
    println!("cargo::error=DEOXYS_SRC is set, but there is no {} ({error})", path.display());
    std::process::exit(1)
}

fn write(path: &Path, text: &[u8]) {
    fs::write(path, text).expect("the build folder can be written");
}
