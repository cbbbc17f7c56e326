//! Finds libfeddurzai: in the folder `FEDDURZAI_LIB_DIR`, else in the clone that has this crate, else by pkg-config.

use std::env;
use std::path::{Path, PathBuf};
use std::process::{exit, Command};

fn main() {
    for name in ["FEDDURZAI_LIB_DIR", "FEDDURZAI_STATIC", "PKG_CONFIG", "PKG_CONFIG_PATH"] {
        println!("cargo:rerun-if-env-changed={}", name);
    }
    println!("cargo:rerun-if-changed=build.rs");
    if env::var_os("DOCS_RS").is_some() {
        return;
    }
    let wants_static = match env::var("FEDDURZAI_STATIC").as_deref() {
        Ok("1") => Some(true),
        Ok("0") => Some(false),
        Ok("") | Err(_) => None,
        Ok(_) => fail("FEDDURZAI_STATIC must be 0 or 1"),
    };
    if let Some(folder) = env::var_os("FEDDURZAI_LIB_DIR") {
        let folder = PathBuf::from(folder);
        if !links_folder(&folder, wants_static) {
            fail(&format!("FEDDURZAI_LIB_DIR: {} has no libfeddurzai.a or libfeddurzai.so", folder.display()));
        }
    } else if !links_clone(wants_static) {
        links_by_pkg_config(wants_static);
    }
}

/// Ends the build with a message.
fn fail(why: &str) -> ! {
    eprintln!("error: {}", why);
    eprintln!("libfeddurzai is required: install it so that `pkg-config --libs feddurzai` finds it,");
    eprintln!(
        "or name its folder in FEDDURZAI_LIB_DIR. FEDDURZAI_STATIC=1 links libfeddurzai.a, and 0 libfeddurzai.so."
    );
    exit(1);
}

/// Links the library in a folder: the static one if it is there, unless the shared one is requested.
fn links_folder(folder: &Path, wants_static: Option<bool>) -> bool {
    // the linker runs in another folder
    let folder = folder.canonicalize().unwrap_or_else(|_| folder.to_path_buf());
    let is_static = wants_static.unwrap_or_else(|| folder.join("libfeddurzai.a").exists());
    let file = folder.join(if is_static { "libfeddurzai.a" } else { "libfeddurzai.so" });
    if !file.exists() {
        return false;
    }
    println!("cargo:rerun-if-changed={}", file.display());
    println!("cargo:rustc-link-search=native={}", folder.display());
    if is_static {
        println!("cargo:rustc-link-lib=static=feddurzai");
    } else {
        println!("cargo:rustc-link-lib=dylib=feddurzai");
        // the tests and examples of this crate find the library where it is
        println!("cargo:rustc-link-arg=-Wl,-rpath,{}", folder.display());
    }
    true
}

/// Links the library that `capi/build.sh` has built, if this crate is `capi/rust` of a clone.
fn links_clone(wants_static: Option<bool>) -> bool {
    match env::var_os("CARGO_MANIFEST_DIR").map(PathBuf::from) {
        Some(here) if here.join("../feddurzai.h").exists() => links_folder(&here.join("../out"), wants_static),
        _ => false,
    }
}

/// Runs pkg-config with some arguments.
fn pkg_config(arguments: &[&str]) -> String {
    let program = env::var_os("PKG_CONFIG").unwrap_or_else(|| "pkg-config".into());
    match Command::new(&program).args(arguments).output() {
        Ok(output) if output.status.success() => String::from_utf8_lossy(&output.stdout).trim().to_string(),
        Ok(output) => fail(String::from_utf8_lossy(&output.stderr).trim()),
        Err(error) => fail(&format!("{}: {}", program.to_string_lossy(), error)),
    }
}

/// Links the library that pkg-config finds: the shared one, unless the static one is requested.
fn links_by_pkg_config(wants_static: Option<bool>) {
    if wants_static == Some(true) {
        let folder = PathBuf::from(pkg_config(&["--variable=libdir", "feddurzai"]));
        if !links_folder(&folder, wants_static) {
            fail(&format!("{} has no libfeddurzai.a", folder.display()));
        }
        return;
    }
    for word in pkg_config(&["--libs", "feddurzai"]).split_whitespace() {
        if let Some(folder) = word.strip_prefix("-L") {
            println!("cargo:rustc-link-search=native={}", folder);
            println!("cargo:rustc-link-arg=-Wl,-rpath,{}", folder);
        } else if let Some(name) = word.strip_prefix("-l") {
            println!("cargo:rustc-link-lib={}", name);
        } else {
            println!("cargo:rustc-link-arg={}", word);
        }
    }
}
