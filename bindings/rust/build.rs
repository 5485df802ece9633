//! Links the proved library. `LULQOTER_LIB_DIR` names the folder with the installed `liblulqoter.a`;
//! without it pkg-config is asked.

use std::env;
use std::process::Command;

fn main() {
    println!("cargo:rerun-if-env-changed=LULQOTER_LIB_DIR");
    println!("cargo:rerun-if-env-changed=PKG_CONFIG_PATH");
    println!("cargo:rustc-link-search=native={}", lib_dir());
    println!("cargo:rustc-link-lib=static=lulqoter");
}

fn lib_dir() -> String {
    if let Ok(dir) = env::var("LULQOTER_LIB_DIR") {
        return dir;
    }
    let asked = Command::new("pkg-config")
        .args(["--variable=libdir", "lulqoter"])
        .output();
    match asked {
        Ok(told) if told.status.success() => String::from_utf8_lossy(&told.stdout).trim().to_string(),
        _ => panic!("set LULQOTER_LIB_DIR to the folder of liblulqoter.a, or PKG_CONFIG_PATH to that of lulqoter.pc"),
    }
}
