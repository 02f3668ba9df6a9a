//! Links the library, which `rt lib` in crates/embed has built, and the memory calls that it makes.
use std::path::{Path, PathBuf};
use std::process::Command;

/// The toolchain's folder of C files.
fn toolchain_c() -> Option<PathBuf> {
    let page = Command::new("rt").arg("doc").output().ok()?;
    let page = String::from_utf8(page.stdout).ok()?;
    Some(Path::new(page.trim()).parent()?.join("c"))
}

fn main() {
    let out = Path::new("../../crates/embed/out");
    println!(
        "cargo:rerun-if-changed={}",
        out.join("libembed.a").display()
    );
    println!(
        "cargo:rustc-link-search=native={}",
        out.canonicalize()
            .expect("run `rt lib` in crates/embed")
            .display()
    );
    println!(
        "cargo:rustc-link-search=native={}",
        toolchain_c().expect("`rt` on the path").display()
    );
    println!("cargo:rustc-link-lib=static=embed");
    println!("cargo:rustc-link-lib=static=libc_c");
}
