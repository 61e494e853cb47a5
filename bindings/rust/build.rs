// Finds libregion3_c.a: in the folder that REGION3_LIB names, else in the repository's out/staticlib (x86-64 Linux, written by
// tools/staticlib) or out/native/aarch64 (written by `tools/native aarch64`). The archive must be for the target's processor and of
// this crate's version. Where there is none a warning says why, and what needs no archive (`cargo doc`, `cargo check`) goes on; what links is given a
// library that is nowhere, whose name is the reason, so that the error says it in a quiet build too.
use std::env;
use std::fs;
use std::path::{Path, PathBuf};

const ARCHIVE: &str = "libregion3_c.a";

// The processors that an archive can be for: cargo's name, ELF's number, and who makes it in which folder of the repository.
const SERVED: [(&str, u16, &str, &str); 2] =
    [("x86_64", 62, "tools/staticlib", "out/staticlib"), ("aarch64", 183, "tools/native aarch64", "out/native/aarch64")];

// The archive has a function of this name and its version: r3_library_version_0_3_0.
const VERSION: &[u8] = b"r3_library_version_";

fn of(name: &str) -> String {
    env::var(name).unwrap_or_default()
}

// The folders in which the archive is looked for, in order. A relative REGION3_LIB is meant from where cargo was started, which a build script knows by
// PWD alone; where it is not there, or there is no PWD, from the crate's own folder, in which build scripts run.
fn folders(place: &str) -> Vec<PathBuf> {
    let crate_folder = PathBuf::from(of("CARGO_MANIFEST_DIR"));
    match env::var_os("REGION3_LIB").map(PathBuf::from) {
        None => vec![crate_folder.join("../..").join(place)],
        Some(folder) if folder.is_absolute() => vec![folder],
        Some(folder) => {
            println!("cargo:rerun-if-env-changed=PWD");
            let mut places = vec![Path::new(&of("PWD")).join(&folder), crate_folder.join(folder)];
            places.retain(|place| place.is_absolute());
            places
        }
    }
}

// The number of the processor that an archive's first object is for.
fn processor(bytes: &[u8]) -> Option<u16> {
    if !bytes.starts_with(b"!<arch>\n") {
        return None;
    }
    let at = bytes.windows(4).position(|w| w == b"\x7fELF")?;
    Some(u16::from_le_bytes([*bytes.get(at + 18)?, *bytes.get(at + 19)?]))
}

// The version in the name of an archive's function.
fn version(bytes: &[u8]) -> Option<String> {
    let at = bytes.windows(VERSION.len()).position(|w| w == VERSION)? + VERSION.len();
    let name = bytes[at..].iter().take_while(|b| b.is_ascii_alphanumeric() || **b == b'_');
    Some(name.map(|&b| if b == b'_' { '.' } else { char::from(b) }).collect())
}

// The folder of the archive to link, or why there is none.
fn found() -> Result<PathBuf, String> {
    let (arch, os) = (of("CARGO_CFG_TARGET_ARCH"), of("CARGO_CFG_TARGET_OS"));
    let &(_, number, maker, place) = SERVED.iter().find(|s| os == "linux" && s.0 == arch).ok_or(format!(
        "the target {} is not served: the library is built for x86_64 Linux, and for aarch64 Linux by `tools/native aarch64`",
        of("TARGET")
    ))?;
    let places = folders(place);
    for folder in &places {
        println!("cargo:rerun-if-changed={}", folder.join(ARCHIVE).display());
    }
    let whole = |folder: &PathBuf| folder.join(ARCHIVE).display().to_string();
    let folder = places.iter().find(|folder| folder.join(ARCHIVE).exists()).ok_or(format!(
        "{} is not there: run `{maker}` in the repository, or name the archive's folder by REGION3_LIB",
        places.iter().map(whole).collect::<Vec<_>>().join(" is not there, and ")
    ))?;
    let archive = whole(folder);
    let bytes = fs::read(folder.join(ARCHIVE)).map_err(|e| format!("{archive} cannot be read: {e}"))?;
    match processor(&bytes) {
        Some(n) if n == number => {}
        Some(n) => {
            let other = SERVED.iter().find(|s| s.1 == n).map_or_else(|| format!("ELF machine {n}"), |s| s.0.to_string());
            return Err(format!("{archive} is for {other}, and the target is {arch}: run `{maker}`"));
        }
        None => return Err(format!("{archive} is no archive of ELF objects")),
    }
    let own = of("CARGO_PKG_VERSION");
    match version(&bytes) {
        Some(other) if other == own => Ok(folder.clone()),
        Some(other) => Err(format!("{archive} is of version {other}, and this crate of {own}: run `{maker}`")),
        None => Err(format!("{archive} does not tell its version, so it is older than this crate, {own}: run `{maker}`")),
    }
}

fn main() {
    println!("cargo:rerun-if-changed=build.rs");
    println!("cargo:rerun-if-env-changed=REGION3_LIB");
    match found() {
        Ok(folder) => {
            println!("cargo:rustc-link-search=native={}", folder.display());
            println!("cargo:rustc-link-lib=static=region3_c");
        }
        Err(why) => {
            println!("cargo:warning={why}");
            // a colon would end the name
            println!("cargo:rustc-link-lib=static=region3_c ({})", why.replace(':', ";"));
        }
    }
}
