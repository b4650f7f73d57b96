//! Finds the library for C: in the folder that `ZIMGASOL_LIB_DIR` names, or by pkg-config. It is
//! linked as a shared library, or as an archive where `ZIMGASOL_STATIC` is set.

use std::env;
use std::process::Command;

/// The versions of the library that these declarations fit.
const NEEDED: [&str; 2] = ["zimgasol >= 0.3", "zimgasol < 0.4"];

fn fail(why: String) -> ! {
    eprintln!("{why}. Set ZIMGASOL_LIB_DIR to the folder of the library for C");
    std::process::exit(1)
}

fn by_pkg_config() -> Vec<String> {
    let ran = Command::new(env::var_os("PKG_CONFIG").unwrap_or("pkg-config".into()))
        .args(["--libs-only-L", "--keep-system-libs"])
        .args(NEEDED)
        .output();
    let found = match ran {
        Ok(found) if found.status.success() => found,
        Ok(found) => fail(String::from_utf8_lossy(&found.stderr).trim().to_owned()),
        Err(error) => fail(format!("pkg-config can't be run: {error}")),
    };
    let words = String::from_utf8_lossy(&found.stdout).into_owned();
    words.split_whitespace().filter_map(|it| it.strip_prefix("-L").map(str::to_owned)).collect()
}

fn main() {
    for name in ["ZIMGASOL_LIB_DIR", "ZIMGASOL_STATIC", "PKG_CONFIG", "PKG_CONFIG_PATH"] {
        println!("cargo::rerun-if-env-changed={name}");
    }
    println!("cargo::rerun-if-changed=build.rs");
    if env::var_os("DOCS_RS").is_some() {
        return;
    }
    let folders = match env::var("ZIMGASOL_LIB_DIR") {
        Ok(folder) => vec![folder],
        Err(_) => by_pkg_config(),
    };
    for folder in folders {
        println!("cargo::rustc-link-search=native={folder}");
    }
    let kind = if env::var_os("ZIMGASOL_STATIC").is_some() { "static" } else { "dylib" };
    println!("cargo::rustc-link-lib={kind}=zimgasol");
}
