//! Links the static library that `./build_c_library` built. Without it `cargo check`, `clippy` and `doc` work nonetheless.

use std::path::{Path, PathBuf};
use std::{env, fs, process};
use version::Version;

#[allow(dead_code)]
#[path = "src/version.rs"]
mod version;

/// The folder of the library: that of `GIX_DATE_LIB_DIR`, or the one where the script leaves it in this repository.
fn library_folder() -> PathBuf {
    match env::var_os("GIX_DATE_LIB_DIR") {
        Some(folder) => folder.into(),
        None => PathBuf::from(env!("CARGO_MANIFEST_DIR")).join("../../out"),
    }
}

/// The version that a header names.
fn version_of(header: &Path) -> Option<Version> {
    let text = fs::read_to_string(header).ok()?;
    let rest = text
        .lines()
        .find_map(|line| line.strip_prefix("#define GIX_DATE_VERSION "))?;
    Version::of_text(rest.trim_matches('"'))
}

/// Why a library with its headers in this folder does not serve this crate.
fn misfit(headers: &Path) -> Option<String> {
    let found = version_of(&headers.join("gix_date.h"))?;
    if let Err(error) = found.serves(Version::of_crate()) {
        return Some(error.to_string());
    }
    // Before its release a version may lack calls.
    let is_older = !headers.join("git_date.h").exists();
    is_older.then(|| {
        "the library gix_date has no git_date.h, and this crate needs its calls".to_string()
    })
}

/// Ends the build if the library's headers say that it does not serve this crate. Where these are, depends on whether the
/// library is installed.
fn compare_headers(folder: &Path) {
    let headers = [folder.to_path_buf(), folder.join("../include")]
        .into_iter()
        .find(|headers| headers.join("gix_date.h").exists());
    let Some(headers) = headers else {
        return;
    };
    for name in ["gix_date.h", "git_date.h"] {
        println!("cargo:rerun-if-changed={}", headers.join(name).display());
    }
    if let Some(why) = misfit(&headers) {
        eprintln!(
            "{why}: {}. Run ./build_c_library, or set GIX_DATE_LIB_DIR to the folder of such a library.",
            folder.display()
        );
        process::exit(1);
    }
}

fn main() {
    let folder = library_folder();
    let library = folder.join("libgix_date.a");
    if library.exists() {
        compare_headers(&folder);
    } else {
        println!(
            "cargo:warning={} is not there, so no program can be linked: run ./build_c_library, or set GIX_DATE_LIB_DIR to its folder",
            library.display()
        );
    }
    println!("cargo:rerun-if-env-changed=GIX_DATE_LIB_DIR");
    println!("cargo:rerun-if-changed={}", library.display());
    println!("cargo:rustc-link-search=native={}", folder.display());
    println!("cargo:rustc-link-lib=static=gix_date");
}
