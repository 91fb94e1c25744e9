//! The driver's files in the build are those of the folder, byte for byte.

use std::{env, fs, path::Path};

#[test]
fn unchanged() {
    let here = Path::new(env!("CARGO_MANIFEST_DIR"));
    let top = here.parent().unwrap();
    let folder = env::var("CYW43_RUST").unwrap_or("../shared/docs/src".into());
    let laid = Path::new(env!("OUT_DIR")).join("rust");
    for line in fs::read_to_string(here.join("sources.txt")).unwrap().lines() {
        let path = line.split(' ').next().unwrap();
        let given = fs::read(top.join(&folder).join(path)).unwrap();
        assert_eq!(fs::read(laid.join(path)).unwrap(), given, "{path}");
    }
}
