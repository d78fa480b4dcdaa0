//! Finds the library: in the folder that BTWORLD_LIB_DIR names. Where that is not set, in `dist/` or `examples/` of the checkout that this
//! crate is in, else by pkg-config.
use std::env;
use std::path::{Path, PathBuf};
use std::process::Command;

fn named() -> Option<PathBuf> {
    env::var_os("BTWORLD_LIB_DIR").map(PathBuf::from)
}

fn in_checkout() -> Vec<PathBuf> {
    let examples = Path::new(env!("CARGO_MANIFEST_DIR")).parent().unwrap_or(Path::new(".."));
    vec![examples.join("../dist"), examples.to_path_buf()]
}

fn installed() -> Option<PathBuf> {
    let tool = env::var("PKG_CONFIG").unwrap_or_else(|_| "pkg-config".into());
    let run = |words: &[&str]| Command::new(&tool).args(words).output().ok().filter(|it| it.status.success());
    run(&["--atleast-version", env!("CARGO_PKG_VERSION"), "btworld"])?;
    let folder = run(&["--variable=libdir", "btworld"])?.stdout;
    Some(PathBuf::from(String::from_utf8(folder).ok()?.trim_end()))
}

fn main() {
    for name in ["BTWORLD_LIB_DIR", "PKG_CONFIG", "PKG_CONFIG_PATH"] {
        println!("cargo::rerun-if-env-changed={name}");
    }
    let is_shared = env::var_os("CARGO_FEATURE_SHARED").is_some();
    let file = if is_shared { "libbtworld.so" } else { "libbtworld.a" };
    let places: Vec<PathBuf> = named().map_or_else(|| in_checkout().into_iter().chain(installed()).collect(), |it| vec![it]);
    let Some(folder) = places.iter().find(|it| it.join(file).exists()) else {
        println!("cargo::error=there is no {file} in {places:?}: install it by `make -C examples install`, or set BTWORLD_LIB_DIR to its folder");
        return;
    };
    println!("cargo::rerun-if-changed={}", folder.join(file).display());
    println!("cargo::rustc-link-search=native={}", folder.display());
    println!("cargo::rustc-link-lib={}=btworld", if is_shared { "dylib" } else { "static" });
    // Build scripts of programs that depend on this crate read it as DEP_BTWORLD_LIB_DIR.
    println!("cargo::metadata=lib_dir={}", folder.display());
    if is_shared {
        // So examples and tests of this package find the library. Other programs need a path of their own, or LD_LIBRARY_PATH.
        println!("cargo::rustc-link-arg-examples=-Wl,-rpath,{}", folder.display());
        println!("cargo::rustc-link-arg-tests=-Wl,-rpath,{}", folder.display());
    }
}
