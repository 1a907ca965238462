//! Finds the engine's library for the linker, or says why there is nothing to link.
//!
//! `LN_LIBRARY` names the folder of `libln.a`; without it that is the repository's `crates/ln/out`.
//! A relative folder is looked for from where cargo was called, then from this package.

use std::env;
use std::path::{Path, PathBuf};

fn main() {
    println!("cargo:rerun-if-env-changed=LN_LIBRARY");
    if let Err(reason) = check_target() {
        give_up(&reason);
    }
    match find_library() {
        Ok(folder) => {
            println!("cargo:rustc-link-search=native={}", folder.display());
            println!("cargo:rerun-if-changed={}", folder.join("libln.a").display());
        }
        Err(reason) => give_up(&reason),
    }
}

/// Ends the build with this reason.
fn give_up(reason: &str) -> ! {
    eprintln!("{}", reason);
    std::process::exit(1)
}

/// The library's code is for x86-64 Linux alone.
fn check_target() -> Result<(), String> {
    let of = |name: &str| env::var(name).unwrap_or_default();
    let (processor, system) = (of("CARGO_CFG_TARGET_ARCH"), of("CARGO_CFG_TARGET_OS"));
    if processor == "x86_64" && system == "linux" {
        return Ok(());
    }
    Err(format!(
        "The engine's library, libln.a, is code for x86-64 Linux; this build is for {} {}, where it \
         cannot be linked.\nBuild for it, with a linker for it: cargo build --target \
         x86_64-unknown-linux-gnu. On aarch64 Linux `host/run` does so.",
        processor, system
    ))
}

/// The folder of the library, by its whole path.
fn find_library() -> Result<PathBuf, String> {
    let package =
        PathBuf::from(env::var_os("CARGO_MANIFEST_DIR").expect("cargo names the package"));
    let named = env::var_os("LN_LIBRARY").filter(|folder| !folder.is_empty()).map(PathBuf::from);
    let folders = match &named {
        None => vec![package.join("../crates/ln/out")],
        Some(folder) if folder.is_absolute() => vec![folder.clone()],
        Some(folder) => {
            // Cargo calls this program in the package; the shell's own folder is still in PWD.
            println!("cargo:rerun-if-env-changed=PWD");
            let called = env::var_os("PWD").map(PathBuf::from).into_iter();
            called.chain([package]).map(|from| from.join(folder)).collect()
        }
    };
    let has = |folder: &&PathBuf| folder.join("libln.a").is_file();
    match folders.iter().find(has) {
        Some(folder) => Ok(folder.canonicalize().unwrap_or_else(|_| folder.clone())),
        None => Err(missing(&folders, named.as_deref())),
    }
}

/// What to do where there is no library.
fn missing(folders: &[PathBuf], named: Option<&Path>) -> String {
    let folders: Vec<String> = folders.iter().map(|folder| folder.display().to_string()).collect();
    let advice = match named {
        None => {
            "Make it by `rt lib` in the repository's crates/ln, or set LN_LIBRARY to the folder that \
             has it."
        }
        Some(_) => "LN_LIBRARY names the folder that has it; `rt lib` in crates/ln makes it.",
    };
    format!("There is no libln.a, the engine's library, in {}.\n{}", folders.join(" or "), advice)
}
