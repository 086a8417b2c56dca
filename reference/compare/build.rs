//! Links the archives of the proved functions into the binaries. The library
//! and its tests need none.

use std::env;
use std::ffi::OsString;
use std::path::Path;

/// The variable that names the archives' folder. Where it is set, the archives
/// have to be there, whatever is built.
const FOLDER_VARIABLE: &str = "YAZHMANDU_ARCHIVES";

/// The archives' folder where the variable is not set. As a relative value of
/// the variable it is relative to the manifest.
const DEFAULT_FOLDER: &str = "../../target/staticlib";

/// The archives.
const ARCHIVES: [&str; 3] = ["libtest_calls.a", "libmachine.a", "libyazhmandu.a"];

fn main() {
    let manifest = env::var_os("CARGO_MANIFEST_DIR").expect("cargo names the manifest's folder");
    let named = env::var_os(FOLDER_VARIABLE);
    let is_named = named.is_some();
    let folder = named.unwrap_or_else(|| OsString::from(DEFAULT_FOLDER));
    let folder = Path::new(&manifest).join(folder);

    println!("cargo:rerun-if-env-changed={FOLDER_VARIABLE}");
    for name in ARCHIVES {
        let archive = folder.join(name);
        println!("cargo:rerun-if-changed={}", archive.display());
        assert!(
            !is_named || archive.is_file(),
            "{} is missing; {FOLDER_VARIABLE} names the folder of {name}",
            archive.display()
        );
        println!("cargo:rustc-link-arg-bins={}", archive.display());
    }
}
