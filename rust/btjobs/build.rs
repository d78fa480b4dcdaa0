//! Finds libbtjobs.a: in the folder that BTJOBS_LIB_DIR names, beside this file in lib/, or where pkg-config says.
use std::path::Path;
use std::process::Command;

fn installed() -> Option<String> {
    let out = Command::new("pkg-config").args(["--variable=libdir", "btjobs"]).output().ok()?;
    let folder = String::from_utf8(out.stdout).ok()?.trim().to_string();
    (out.status.success() && !folder.is_empty()).then_some(folder)
}

fn main() {
    println!("cargo:rerun-if-env-changed=BTJOBS_LIB_DIR");
    println!("cargo:rerun-if-env-changed=PKG_CONFIG_PATH");
    let beside = format!("{}/lib", std::env::var("CARGO_MANIFEST_DIR").unwrap());
    let named = std::env::var("BTJOBS_LIB_DIR").ok();
    let folder = named.or_else(|| Path::new(&beside).join("libbtjobs.a").exists().then_some(beside)).or_else(installed);
    let Some(folder) = folder else {
        println!("cargo:warning=libbtjobs.a isn't found: name its folder by BTJOBS_LIB_DIR, or install it");
        return;
    };
    println!("cargo:rerun-if-changed={folder}/libbtjobs.a");
    println!("cargo:rustc-link-search=native={folder}");
    println!("cargo:rustc-link-lib=static=btjobs");
}
