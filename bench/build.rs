//! Links the proved library if the variable BASE_LIBRARY names a static library file, such as a path that ends in libexport.a.

use std::path::Path;

/// Tells cargo where the library stands, and the sources that it is there.
fn main() {
    println!("cargo::rerun-if-env-changed=BASE_LIBRARY");
    println!("cargo::rustc-check-cfg=cfg(proved_library)");
    let Ok(library) = std::env::var("BASE_LIBRARY") else { return };
    let path = Path::new(&library);
    let name = path.file_stem().and_then(|name| name.to_str()).and_then(|name| name.strip_prefix("lib"));
    let (Some(folder), Some(name)) = (path.parent(), name) else {
        panic!("BASE_LIBRARY must name a file like libexport.a");
    };
    println!("cargo::rerun-if-changed={library}");
    println!("cargo::rustc-link-search=native={}", folder.display());
    println!("cargo::rustc-link-lib=static:-bundle={name}");
    println!("cargo::rustc-cfg=proved_library");
}
