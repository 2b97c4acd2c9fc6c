//! Says where `libwathread.a` is: in the folder that WATHREAD_LIB_DIR names, or where pkg-config finds it, or in the
//! checkout that this crate lies in.
use std::env;
use std::path::{Path, PathBuf};
use std::process::Command;

const ARCHIVE: &str = "libwathread.a";

fn named() -> Option<PathBuf> {
    env::var_os("WATHREAD_LIB_DIR").map(PathBuf::from)
}

fn of_pkg_config() -> Option<PathBuf> {
    let program = env::var_os("PKG_CONFIG").unwrap_or_else(|| "pkg-config".into());
    let said = Command::new(program).args(["--variable=archive", "wathread"]).output().ok()?;
    let path = String::from_utf8(said.stdout).ok()?.trim().replace("\\ ", " ");
    Path::new(&path).parent().map(PathBuf::from).filter(|it| said.status.success() && it.join(ARCHIVE).exists())
}

fn of_checkout() -> Option<PathBuf> {
    let crate_folder = PathBuf::from(env::var_os("CARGO_MANIFEST_DIR")?);
    let folder = crate_folder.parent()?.parent()?.join("lib");
    folder.join(ARCHIVE).exists().then_some(folder)
}

fn main() {
    for name in ["WATHREAD_LIB_DIR", "PKG_CONFIG", "PKG_CONFIG_PATH"] {
        println!("cargo:rerun-if-env-changed={}", name);
    }
    println!("cargo:rerun-if-changed=build.rs");
    let folder = named().or_else(of_pkg_config).or_else(of_checkout).filter(|it| it.join(ARCHIVE).exists());
    let folder = folder.unwrap_or_else(|| stop());
    println!("cargo:rerun-if-changed={}", folder.join(ARCHIVE).display());
    println!("cargo:rustc-link-search=native={}", folder.display());
    println!("cargo:rustc-link-lib=static=wathread");
}

fn stop() -> ! {
    eprintln!("{} isn't there: WATHREAD_LIB_DIR may name its folder, PKG_CONFIG_PATH that of wathread.pc", ARCHIVE);
    std::process::exit(1)
}
