//! Links the library that lies in `lib/`, or the one in the folder that ROLGUNAI_LIB_DIR names.

use std::env;
use std::path::PathBuf;

fn variable(name: &str) -> String {
    env::var(name).unwrap_or_default()
}

fn main() {
    println!("cargo:rerun-if-env-changed=ROLGUNAI_LIB_DIR");
    let (processor, system) = (variable("CARGO_CFG_TARGET_ARCH"), variable("CARGO_CFG_TARGET_OS"));
    if (processor.as_str(), system.as_str()) != ("x86_64", "linux") {
        panic!("Rolgunai's library is for x86_64 on linux alone, and not for {processor} on {system}");
    }
    let own = || PathBuf::from(variable("CARGO_MANIFEST_DIR")).join("lib");
    let folder = env::var_os("ROLGUNAI_LIB_DIR").map_or_else(own, PathBuf::from);
    println!("cargo:rerun-if-changed={}", folder.join("librolgunai.a").display());
    println!("cargo:rustc-link-search=native={}", folder.display());
    println!("cargo:rustc-link-lib=static=rolgunai");
}
