//! Finds the files of the Rust crate and writes its region 3 and saturation line in three forms.
//! The forms go to Cargo's OUT_DIR. The files themselves are only read, and none is copied here.

#[path = "rewrite/forms.rs"]
mod forms;
#[path = "rewrite/items.rs"]
mod items;
#[path = "rewrite/tokens.rs"]
mod tokens;

use forms::Form;
use std::path::{Path, PathBuf};
use std::{env, fs, process};

/// The crate's modules that the port takes, with the files that make each up.
const MODULES: [(&str, &[&str]); 4] = [
    ("algo", &["polynomial", "polynomial_steps", "root"]),
    ("common", &["boundaries", "constant", "property_id"]),
    (
        "r3",
        &[
            "region3",
            "region3_Td",
            "region3_Td_ext",
            "region3_Tv_phps",
            "region3_hfe",
            "region3_p_hs",
            "region3_pair_ext",
            "region3_v_pT",
            "region3_v_subregion_pT",
        ],
    ),
    ("r4", &["region4_sat_pT"]),
];

/// Files whose names the crate's own mod.rs does not pass on.
const KEPT_INSIDE: [&str; 1] = ["region3_hfe"];

fn main() {
    println!("cargo:rerun-if-env-changed=SEUIF97_SRC");
    println!("cargo:rerun-if-changed=build.rs");
    println!("cargo:rerun-if-changed=rewrite");
    let top = source();
    let out = PathBuf::from(env::var_os("OUT_DIR").expect("Cargo sets OUT_DIR"));
    for form in [Form::Plain, Form::Ruled, Form::Checked] {
        let text = whole(&top, form);
        fs::write(out.join(format!("{}.rs", form.name())), text).expect("OUT_DIR can be written");
    }
}

/// The folder that holds the crate's src/: SEUIF97_SRC, or shared/docs/src beside the repository.
fn source() -> PathBuf {
    let own = PathBuf::from(env::var_os("CARGO_MANIFEST_DIR").expect("Cargo sets this"));
    let top = match env::var_os("SEUIF97_SRC") {
        Some(path) => PathBuf::from(path),
        None => own.join("../../../shared/docs/src"),
    };
    if !top.join("src/r3/region3.rs").is_file() {
        eprintln!("The Rust crate seuif97 2.3.8 is not at {}.", top.display());
        eprintln!("Set SEUIF97_SRC to the folder that holds its src/.");
        process::exit(1);
    }
    top
}

/// One form of all modules, as the text of one Rust module.
fn whole(top: &Path, form: Form) -> String {
    let mut text = String::new();
    for (module, files) in MODULES {
        text += &format!("pub mod {module} {{\n");
        for file in files {
            let path = top.join("src").join(module).join(format!("{file}.rs"));
            println!("cargo:rerun-if-changed={}", path.display());
            let rust = fs::read_to_string(&path)
                .unwrap_or_else(|e| panic!("{} cannot be read: {e}", path.display()));
            text += &format!("pub mod {file} {{\n{}\n}}\n", form.rewrite(file, &rust));
            if !KEPT_INSIDE.contains(file) {
                text += &format!("pub use self::{file}::*;\n");
            }
        }
        text += "}\n";
    }
    text
}
