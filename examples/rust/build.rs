//! Links the archive of the target, and with the feature `std` the two memory functions over malloc. Where they are, two variables of the
//! environment tell: ZONEALLOC_ARCHIVE (libzonealloc.a) and ZONEALLOC_MALLOC (libzonealloc_malloc.a, which `make` leaves in build/). Without
//! the former it is the archive that `make targets` names for the target: of kernels, where there is no operating system.

use std::env;
use std::path::{Path, PathBuf};

const TOP: &str = concat!(env!("CARGO_MANIFEST_DIR"), "/../..");

/// The target, as `make targets` names it.
fn target() -> String {
    let said = |name: &str| env::var(name).unwrap_or_default();
    let (machine, system) = (said("CARGO_CFG_TARGET_ARCH"), said("CARGO_CFG_TARGET_OS"));
    match (machine.as_str(), system.as_str()) {
        ("x86_64", "none") => "x86_64-kernel-pic".to_string(),
        (_, "none") => format!("{machine}-kernel"),
        _ => machine,
    }
}

fn link(variable: &str, usual: &[String], name: &str) {
    println!("cargo:rerun-if-env-changed={variable}");
    let usual: Vec<PathBuf> = usual.iter().map(|it| Path::new(TOP).join(it)).collect();
    let found = usual.iter().find(|it| it.exists()).or_else(|| usual.last()).cloned();
    let archive = env::var_os(variable).map(PathBuf::from).or(found).expect("there is a usual place");
    let archive = archive.canonicalize().unwrap_or_else(|_| panic!("{} is not there: name it in {variable}", archive.display()));
    assert!(archive.ends_with(format!("lib{name}.a")), "{variable} has to name a lib{name}.a");
    println!("cargo:rerun-if-changed={}", archive.display());
    println!("cargo:rustc-link-search=native={}", archive.parent().unwrap().display());
    println!("cargo:rustc-link-lib=static={name}");
}

/// (Where `rt lib` and `make` leave what is for programs on x86-64 is looked at first.)
fn main() {
    let target = target();
    let near = |usual: &str, name: &str| {
        let made = format!("build/targets/{target}/lib{name}.a");
        if target == "x86_64" {
            vec![format!("{usual}/lib{name}.a"), made]
        } else {
            vec![made]
        }
    };
    link("ZONEALLOC_ARCHIVE", &near("crates/zonealloc/out", "zonealloc"), "zonealloc");
    if env::var_os("CARGO_FEATURE_STD").is_some() {
        link("ZONEALLOC_MALLOC", &near("build", "zonealloc_malloc"), "zonealloc_malloc");
    }
}
