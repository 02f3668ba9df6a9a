//! Links the library, where `rt lib` has built it; without it the benchmark measures unverified Rust alone.
use std::path::{Path, PathBuf};
use std::process::Command;

/// The toolchain's folder of C files, which has the memory calls that the library makes.
fn toolchain_c() -> Option<PathBuf> {
    let page = Command::new("rt").arg("doc").output().ok()?;
    let page = String::from_utf8(page.stdout).ok()?;
    let folders = Path::new(page.trim()).ancestors();
    folders
        .map(|folder| folder.join("c"))
        .find(|c| c.join("liblibc_c.a").is_file())
}

fn main() {
    println!("cargo:rustc-check-cfg=cfg(library)");
    println!("cargo:rerun-if-changed=../crates/embed/out/libembed.a");
    let out = Path::new("../crates/embed/out");
    let Some(c) = toolchain_c().filter(|_| out.join("libembed.a").is_file()) else {
        println!("cargo:warning=the library is not built: run `rt lib` in crates/embed");
        return;
    };
    println!("cargo:rustc-cfg=library");
    println!(
        "cargo:rustc-link-search=native={}",
        out.canonicalize().expect("a folder").display()
    );
    println!("cargo:rustc-link-search=native={}", c.display());
    println!("cargo:rustc-link-lib=static=embed");
    println!("cargo:rustc-link-lib=static=libc_c");
}
