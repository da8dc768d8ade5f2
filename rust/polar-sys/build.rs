// Links the proved library, and refuses one that is not of the sources as they are now: tools/library tells, and builds it.
// What it builds is x86-64 code; for another processor tools/native-staticlib has the same crate compiled for that one.
use std::path::{Path, PathBuf};
use std::process::{exit, Command};
use std::{env, fs, str};

fn main() {
    let top = PathBuf::from(env::var("CARGO_MANIFEST_DIR").unwrap()).join("../..");
    let folder = match env::var("CARGO_CFG_TARGET_ARCH").unwrap().as_str() {
        "x86_64" => top.join("target/staticlib"),
        _ => top.join("target/staticlib-native"),
    };
    for looked_at in ["crates.txt", "tools/library"].map(|path| top.join(path)).into_iter().chain(sources(&top)) {
        println!("cargo:rerun-if-changed={}", looked_at.display());
    }
    for built in ["libpolar_c.a", "libpolar_c.stamp"].map(|name| folder.join(name)) {
        println!("cargo:rerun-if-changed={}", built.display());
    }
    println!("cargo:rerun-if-changed=build.rs");
    let check = Command::new(top.join("tools/library")).arg("--check").output();
    match check {
        Ok(told) if told.status.success() => {}
        Ok(told) => refuse(str::from_utf8(&told.stderr).unwrap_or("the library cannot be used")),
        Err(why) => refuse(&format!("tools/library could not be run: {why}")),
    }
    println!("cargo:rustc-link-search=native={}", folder.display());
    println!("cargo:rustc-link-lib=static=polar_c");
}

/// The folders that the library is proved from. What the toolchain keeps beside them, in out/, is not looked at.
fn sources(top: &Path) -> Vec<PathBuf> {
    let crates = fs::read_dir(top.join("crates")).expect("crates/");
    let of_crate = |folder: PathBuf| ["src", "specs", "proofs"].map(|part| folder.join(part));
    crates.flat_map(|found| of_crate(found.expect("a crate").path())).filter(|part| part.is_dir()).collect()
}

fn refuse(why: &str) -> ! {
    eprintln!("{}", why.trim_end());
    exit(1)
}
