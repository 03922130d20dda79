//! Links the static library `feature_graph_c` and the C library of Rattle's kit.
//!
//! `FEATURE_GRAPH_C` names the folder with `libfeature_graph_c.a`; without it, that is `crates/feature_graph_c/out`.
//! `liblibc_c.a` is looked for in the same folder, and then in the kit of the command `rt`.
use std::env;
use std::path::{Path, PathBuf};
use std::process::Command;

const LIBRARY: &str = "libfeature_graph_c.a";
const C_LIBRARY: &str = "liblibc_c.a";

/// Returns the folder with the library.
fn library_folder() -> PathBuf {
    match env::var_os("FEATURE_GRAPH_C") {
        Some(folder) => PathBuf::from(folder),
        None => Path::new(&env::var_os("CARGO_MANIFEST_DIR").expect("cargo names the folder of the manifest"))
            .join("../../crates/feature_graph_c/out"),
    }
}

/// Returns the folder of the kit's C library, by the page whose path `rt doc` prints.
fn kit_folder() -> Option<PathBuf> {
    let printed = Command::new("rt").arg("doc").output().ok()?;
    let page = String::from_utf8(printed.stdout).ok()?;
    Some(Path::new(page.trim()).parent()?.join("c"))
}

fn main() {
    println!("cargo::rerun-if-env-changed=FEATURE_GRAPH_C");
    let folder = library_folder();
    let library = folder.join(LIBRARY);
    assert!(
        library.is_file(),
        "{} is missing: build it by `rust/make_library`, or name its folder by FEATURE_GRAPH_C",
        library.display()
    );
    let c_folder = Some(folder.clone()).filter(|it| it.join(C_LIBRARY).is_file()).or_else(kit_folder);
    let Some(c_folder) = c_folder.filter(|it| it.join(C_LIBRARY).is_file()) else {
        panic!("{C_LIBRARY} is neither in {} nor in the kit of `rt`", folder.display());
    };
    for (folder, file) in [(&folder, LIBRARY), (&c_folder, C_LIBRARY)] {
        println!("cargo::rerun-if-changed={}", folder.join(file).display());
        println!("cargo::rustc-link-search=native={}", folder.display());
    }
    println!("cargo::rustc-link-lib=static=feature_graph_c");
    println!("cargo::rustc-link-lib=static=libc_c");
}
