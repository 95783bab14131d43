//! Links the library. It is looked for in the folder that the variable `GOBLIN_PE_LIB` names, then in the folder lib
//! of the crate, then in the folder into which bindings/build puts it, and at last where pkg-config finds it. For another
//! target than this machine only the variable can name a library. Without a library you can check and document a program,
//! but not link it.
use std::env;
use std::path::{Path, PathBuf};
use std::process::Command;

const ARCHIVE: &str = "libgoblin_pe.a";

fn main() {
    println!("cargo::rerun-if-env-changed=GOBLIN_PE_LIB");
    println!("cargo::rerun-if-env-changed=PKG_CONFIG_PATH");
    println!("cargo::rerun-if-env-changed=PKG_CONFIG_LIBDIR");
    let folder = match env::var_os("GOBLIN_PE_LIB") {
        Some(named) => Some(of_the_caller(named.into())),
        None if is_for_another() => None,
        None => beside().or_else(installed),
    };
    println!("cargo::rustc-link-lib=static=goblin_pe");
    if let Some(folder) = folder.filter(|it| has_library(it)) {
        println!("cargo::rustc-link-search=native={}", folder.display());
        println!("cargo::rerun-if-changed={}", folder.join(ARCHIVE).display());
    } else {
        // (linking fails then. This file does not exist, so the next build looks again.)
        println!("cargo::rerun-if-changed=lib/libgoblin_pe.a");
        println!(
            "cargo::warning=the library libgoblin_pe for {} is not there: run bindings/build of its repository, \
             or name the folder with libgoblin_pe.a by the variable GOBLIN_PE_LIB",
            env::var("TARGET").unwrap_or_default()
        );
    }
}

// The folder that the variable names. A relative path is meant from the caller's folder, but cargo runs this in another.
fn of_the_caller(named: PathBuf) -> PathBuf {
    env::var_os("PWD").map_or(named.clone(), |caller| Path::new(&caller).join(named))
}

// Whether the target has another processor or system than this machine.
fn is_for_another() -> bool {
    let of = |triple: &str| {
        let triple = env::var(triple).unwrap_or_default();
        let mut words = triple.split('-').map(String::from);
        (words.next(), words.nth(1))
    };
    of("TARGET") != of("HOST")
}

// Whether a folder has the archive. (A shared library alone could be linked, but the program would not find it when it starts.)
fn has_library(folder: &Path) -> bool {
    folder.join(ARCHIVE).exists()
}

// The folder lib inside this crate, or beside it in the repository.
fn beside() -> Option<PathBuf> {
    let here = PathBuf::from(env::var_os("CARGO_MANIFEST_DIR")?);
    let folders = [here.join("lib"), here.join("../lib")];
    folders.into_iter().find(|it| has_library(it))
}

// The folder that pkg-config names.
fn installed() -> Option<PathBuf> {
    let words = ["--variable=libdir", "goblin_pe"];
    let answer = Command::new("pkg-config").args(words).output().ok()?;
    let folder = String::from_utf8(answer.stdout).ok()?;
    answer.status.success().then(|| folder.trim().into())
}
