//! Finds the C library nlroute, links it, and passes its folder on to dependents, as `DEP_NLROUTE_LIB_DIR`.
//!
//! It is the first static library of these: in the folder `NLROUTE_LIB_DIR`; in `native` of a package of a release, or in
//! `../lib` of an unpacked release, for x86-64 Linux; what pkg-config finds. If `NLROUTE_STATIC` is 0, it is the shared
//! library of `NLROUTE_LIB_DIR` or pkg-config. On docs.rs, which sets `DOCS_RS`, nothing is linked.

use std::env;
use std::path::Path;
use std::process::{exit, Command};

fn main() {
    for name in ["DOCS_RS", "NLROUTE_LIB_DIR", "NLROUTE_STATIC", "PKG_CONFIG", "PKG_CONFIG_PATH"] {
        println!("cargo:rerun-if-env-changed={name}");
    }
    println!("cargo:rerun-if-changed=build.rs");
    if env::var_os("DOCS_RS").is_some() {
        return;
    }
    let is_static = env::var("NLROUTE_STATIC").map_or(true, |value| value != "0");
    let (kind, file) = if is_static { ("static", "libnlroute.a") } else { ("dylib", "libnlroute.so") };
    let folder = match env::var("NLROUTE_LIB_DIR") {
        Ok(folder) if !folder.is_empty() => folder,
        _ => released().filter(|_| is_static).unwrap_or_else(installed),
    };
    let library = Path::new(&folder).join(file);
    if !library.exists() {
        fail(&format!("{folder} has no {file}"));
    }
    println!("cargo:rerun-if-changed={}", library.display());
    println!("cargo:rustc-link-search=native={folder}");
    println!("cargo:rustc-link-lib={kind}=nlroute");
    println!("cargo:lib_dir={folder}");
}

/// Returns the folder of the static library that is in this package, or in the release that has it, if there is one for
/// the target.
fn released() -> Option<String> {
    let target = |name: &str| env::var(format!("CARGO_CFG_TARGET_{name}")).unwrap_or_default();
    if target("ARCH") != "x86_64" || target("OS") != "linux" {
        return None;
    }
    let package = env::var("CARGO_MANIFEST_DIR").ok()?;
    let folders = [format!("{package}/native"), format!("{package}/../lib")];
    folders.into_iter().find(|it| Path::new(it).join("libnlroute.a").exists())
}

/// Returns the folder of the library that pkg-config finds, which has the version of this package.
fn installed() -> String {
    let series = concat!(env!("CARGO_PKG_VERSION_MAJOR"), ".", env!("CARGO_PKG_VERSION_MINOR"), ".");
    let version = pkg_config("--modversion");
    if !version.starts_with(series) {
        fail(&format!("pkg-config finds version {version}"));
    }
    pkg_config("--variable=libdir")
}

/// Returns what pkg-config prints about the library.
fn pkg_config(option: &str) -> String {
    let program = env::var("PKG_CONFIG").unwrap_or_else(|_| "pkg-config".to_string());
    match Command::new(&program).args(["--print-errors", option, "nlroute"]).output() {
        Ok(output) if output.status.success() => String::from_utf8_lossy(&output.stdout).trim().to_string(),
        Ok(output) => fail(String::from_utf8_lossy(&output.stderr).trim()),
        Err(error) => fail(&format!("{program}: {error}")),
    }
}

/// Ends the build with a message that says what to do.
fn fail(reason: &str) -> ! {
    let series = concat!(env!("CARGO_PKG_VERSION_MAJOR"), ".", env!("CARGO_PKG_VERSION_MINOR"));
    eprintln!("The C library nlroute {series} was not found:");
    eprintln!("{reason}");
    eprintln!(
        "Install it from a release or with tools/install.sh PREFIX. Then set PKG_CONFIG_PATH=PREFIX/lib/pkgconfig"
    );
    eprintln!("or NLROUTE_LIB_DIR=PREFIX/lib.");
    exit(1)
}
