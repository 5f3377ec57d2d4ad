//! Links the archive of the proved calls, and finds out whether this Rust has `core::error::Error`.

use std::env;
use std::path::{Path, PathBuf};
use std::process::Command;

/// Where `bindings/c/build.sh` puts the archive, seen from here.
const BUILT: &str = "../../../crates/icu_calendar_c/out/libicu_calendar_c.a";
/// The toolchain's three functions over `malloc`, `realloc` and `free`, which the archive calls.
const HEAP: &str = "liblibc_c.a";

fn main() {
    println!("cargo:rerun-if-env-changed=ICU_CALENDAR_LIB");
    println!("cargo:rerun-if-changed=build.rs");
    if minor_of_rustc() >= 81 {
        println!("cargo:rustc-cfg=core_error");
    }
    // The documentation is written without linking anything.
    if env::var_os("DOCS_RS").is_some() {
        return;
    }
    let archive = archive();
    link(&archive);
    if let Some(heap) = heap_beside(&archive) {
        link(&heap);
    }
}

/// Ends the build with one line that says what to do.
fn stop(what: &str) -> ! {
    println!("cargo:warning={what}");
    std::process::exit(1)
}

/// Returns the archive that `ICU_CALENDAR_LIB` names, or the one that was built in this checkout.
fn archive() -> PathBuf {
    let named = env::var_os("ICU_CALENDAR_LIB").map(PathBuf::from);
    let here = PathBuf::from(env::var_os("CARGO_MANIFEST_DIR").unwrap_or_default());
    let path = named.unwrap_or_else(|| here.join(BUILT));
    println!("cargo:rerun-if-changed={}", path.display());
    match path.canonicalize() {
        Ok(path) if path.is_file() => path,
        _ => stop(&format!(
            "icu_calendar_proved: no {}; run bindings/c/build.sh, or let ICU_CALENDAR_LIB name a libicu_calendar_c.a",
            path.display()
        )),
    }
}

/// Returns the archive of the heap functions: beside the other one, or in the toolchain that `rt` belongs to.
fn heap_beside(archive: &Path) -> Option<PathBuf> {
    let beside = archive.with_file_name(HEAP);
    if beside.is_file() {
        return Some(beside);
    }
    let paths = env::var_os("PATH")?;
    let rt = env::split_paths(&paths)
        .map(|it| it.join("rt"))
        .find(|it| it.is_file())?;
    let heap = rt
        .canonicalize()
        .ok()?
        .parent()?
        .parent()?
        .join("c")
        .join(HEAP);
    heap.is_file().then_some(heap)
}

/// Links a static library by its path.
fn link(archive: &Path) {
    let name = archive
        .file_name()
        .and_then(|it| it.to_str())
        .unwrap_or_default();
    let Some(name) = name
        .strip_prefix("lib")
        .and_then(|it| it.strip_suffix(".a"))
    else {
        stop(&format!(
            "icu_calendar_proved: {} isn't called lib*.a",
            archive.display()
        ));
    };
    if let Some(folder) = archive.parent() {
        println!("cargo:rustc-link-search=native={}", folder.display());
    }
    println!("cargo:rustc-link-lib=static={name}");
}

/// Returns the minor version of the compiler, such as 75 of 1.75.0, or 0 if it doesn't say one.
fn minor_of_rustc() -> u32 {
    let rustc = env::var_os("RUSTC").unwrap_or_else(|| "rustc".into());
    let said = Command::new(rustc).arg("--version").output();
    let text = said
        .map(|it| String::from_utf8_lossy(&it.stdout).into_owned())
        .unwrap_or_default();
    let version = text.split_whitespace().nth(1).unwrap_or_default();
    version
        .split('.')
        .nth(1)
        .and_then(|it| it.parse().ok())
        .unwrap_or(0)
}
