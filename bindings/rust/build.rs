//! Links the proved library, libgpu_c.a: the one in the folder PILHANGKO_LIB_DIR, or else the target's in `lib/`, which a release has, or else
//! the one that the repository has built.

use std::env;
use std::path::{Path, PathBuf};

/// How the target's platform is called, if there is a library for it (tools/build_targets).
fn platform(arch: &str, system: &str) -> Option<&'static str> {
    match (arch, system) {
        ("x86_64", "linux") => Some("x86_64-linux"),
        ("aarch64", "linux") => Some("aarch64-linux"),
        ("aarch64", "android") => Some("aarch64-android"),
        ("x86_64", "windows") => Some("x86_64-windows"),
        ("aarch64", "windows") => Some("aarch64-windows"),
        ("x86_64", "macos") => Some("x86_64-macos"),
        ("aarch64", "macos") => Some("arm64-macos"),
        _ => None,
    }
}

/// The folder of the target's library: of those where it may be the first that has it, else the last.
fn folder_for(platform: &str) -> PathBuf {
    let here = Path::new(env!("CARGO_MANIFEST_DIR"));
    let top = here.join("../..");
    let proved =
        if platform == "x86_64-linux" { top.join("crates/gpu_c/out") } else { top.join("out/targets").join(platform) };
    let released = here.join("lib").join(platform);
    if released.join("libgpu_c.a").is_file() {
        released
    } else {
        proved
    }
}

/// Where the library is looked for.
fn folder() -> Result<PathBuf, String> {
    match env::var_os("PILHANGKO_LIB_DIR") {
        Some(folder) if folder.is_empty() => {
            Err("PILHANGKO_LIB_DIR is set, but empty: name the folder that has libgpu_c.a, or unset it".to_owned())
        }
        Some(folder) => Ok(PathBuf::from(folder)),
        None => {
            let told = |name| env::var(name).unwrap_or_default();
            let (arch, system) = (told("CARGO_CFG_TARGET_ARCH"), told("CARGO_CFG_TARGET_OS"));
            platform(&arch, &system).map(folder_for).ok_or_else(|| {
                format!("there is no libgpu_c.a for {arch} {system}: PILHANGKO_LIB_DIR may name a folder with one")
            })
        }
    }
}

fn main() -> Result<(), String> {
    println!("cargo:rerun-if-env-changed=PILHANGKO_LIB_DIR");
    let folder = folder()?;
    let library = folder.join("libgpu_c.a");
    println!("cargo:rerun-if-changed={}", library.display());
    if !library.is_file() {
        let missing = library.display();
        return Err(format!(
            "{missing} isn't there: set PILHANGKO_LIB_DIR to its folder, or build it (tools/build_archive)"
        ));
    }
    println!("cargo:rustc-link-search=native={}", folder.display());
    // by this name also where libraries are called otherwise, as on Windows
    println!("cargo:rustc-link-lib=static:+verbatim=libgpu_c.a");
    Ok(())
}
