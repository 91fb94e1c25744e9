//! Lays the driver's Rust files, byte for byte, and the shims from `beside/` into OUT_DIR.
//!
//! The files come from the folder CYW43_RUST, else from ../shared/docs/src seen from the
//! repository's top. `sources.txt` lists them with length and FNV-1a hash; a file that
//! differs from its line fails the build.

use std::{
    env, fs,
    path::{Path, PathBuf},
};

fn fnv(bytes: &[u8]) -> u64 {
    bytes
        .iter()
        .fold(0xcbf2_9ce4_8422_2325, |h, &b| (h ^ u64::from(b)).wrapping_mul(0x0100_0000_01b3))
}

fn lay(from: &Path, to: &Path) -> Vec<u8> {
    println!("cargo:rerun-if-changed={}", from.display());
    let bytes = fs::read(from).unwrap_or_else(|e| panic!("{}: {e}", from.display()));
    fs::create_dir_all(to.parent().unwrap()).unwrap();
    fs::write(to, &bytes).unwrap();
    assert_eq!(fs::read(to).unwrap(), bytes, "{} was not laid whole", to.display());
    bytes
}

fn lay_sources(rust: &Path, out: &Path) {
    for line in fs::read_to_string("sources.txt").unwrap().lines() {
        let [path, length, hash] = line.split(' ').collect::<Vec<_>>()[..] else {
            panic!("sources.txt: {line}");
        };
        let bytes = lay(&rust.join(path), &out.join(path));
        let found = format!("{} {:016x}", bytes.len(), fnv(&bytes));
        assert_eq!(found, format!("{length} {hash}"), "{path} is not the listed file");
    }
}

fn lay_shims(from: &Path, to: &Path) {
    println!("cargo:rerun-if-changed={}", from.display());
    for entry in fs::read_dir(from).unwrap() {
        let path = entry.unwrap().path();
        let to = to.join(path.file_name().unwrap());
        if path.is_dir() {
            lay_shims(&path, &to);
        } else {
            assert!(!to.exists() || !is_source(&to), "{} would be covered", to.display());
            lay(&path, &to);
        }
    }
}

fn is_source(laid: &Path) -> bool {
    let listed = fs::read_to_string("sources.txt").unwrap();
    listed.lines().any(|line| laid.ends_with(line.split(' ').next().unwrap()))
}

fn main() {
    println!("cargo:rerun-if-env-changed=CYW43_RUST");
    println!("cargo:rerun-if-changed=build.rs");
    println!("cargo:rerun-if-changed=sources.txt");

    let here = PathBuf::from(env::var("CARGO_MANIFEST_DIR").unwrap());
    let top = here.parent().unwrap();
    let rust = match env::var("CYW43_RUST") {
        Ok(folder) => top.join(folder),
        Err(_) => top.join("../shared/docs/src"),
    };
    let out = PathBuf::from(env::var("OUT_DIR").unwrap()).join("rust");
    let _ = fs::remove_dir_all(&out);

    lay_sources(&rust, &out);
    lay_shims(Path::new("beside"), &out.join("src"));

    let mut root = String::new();
    for module in ["drivers", "net", "sys"] {
        let path = out.join("src").join(module).join("mod.rs");
        root +=
            &format!("#[allow(warnings, clippy::all)]\n#[path = {path:?}]\npub mod {module};\n");
    }
    fs::write(out.parent().unwrap().join("driver.rs"), root).unwrap();
}
