//! Finds libvignorasc.a: in VIGNORASC_LIB_DIR where that is set; else where `tools/staticlib vignorasc` writes it in the repository; else where pkg-config says
//! that `make install` put it.

use std::env;
use std::path::{Path, PathBuf};
use std::process::{exit, Command};

const ARCHIVE: &str = "libvignorasc.a";
const HELP: &str = "\
Give it one of these ways:
  tools/staticlib vignorasc          in the repository: proves the library and writes target/staticlib/libvignorasc.a
  make install PREFIX=/usr/local     in the repository: puts it where pkg-config finds it (PKG_CONFIG_PATH names other folders)
  VIGNORASC_LIB_DIR=/its/folder      names the folder of an archive that you have";

fn main() {
    println!("cargo:rerun-if-changed=build.rs");
    for name in ["VIGNORASC_LIB_DIR", "PKG_CONFIG", "PKG_CONFIG_PATH", "PKG_CONFIG_LIBDIR"] {
        println!("cargo:rerun-if-env-changed={name}");
    }
    let arch = env::var("CARGO_CFG_TARGET_ARCH").unwrap();
    if arch != "x86_64" {
        fail(&format!(
            "{ARCHIVE} is for x86-64 alone, and the target is {arch}.\n\
             Build with --target x86_64-unknown-linux-gnu and a linker for it; qemu-x86_64 runs what comes out."
        ));
    }
    let folder = folder();
    println!("cargo:rerun-if-changed={}", folder.join(ARCHIVE).display());
    println!("cargo:rustc-link-search=native={}", folder.display());
    println!("cargo:rustc-link-lib=static=vignorasc");
}

fn folder() -> PathBuf {
    // Who names a folder doesn't want another one.
    if let Some(named) = env::var_os("VIGNORASC_LIB_DIR") {
        let named = PathBuf::from(named);
        return with_archive(&named)
            .unwrap_or_else(|| fail(&format!("VIGNORASC_LIB_DIR is {}, and there is no {ARCHIVE}.\n{HELP}", named.display())));
    }
    let built = Path::new(&env::var_os("CARGO_MANIFEST_DIR").unwrap()).join("../target/staticlib");
    with_archive(&built).or_else(|| with_archive(&installed()?)).unwrap_or_else(|| {
        fail(&format!("{ARCHIVE} is not in {}, and pkg-config knows no vignorasc.\n{HELP}", built.display()))
    })
}

/// The folder's whole path, if the archive is there.
fn with_archive(folder: &Path) -> Option<PathBuf> {
    if folder.join(ARCHIVE).is_file() {
        folder.canonicalize().ok()
    } else {
        None
    }
}

fn installed() -> Option<PathBuf> {
    let pkg_config = env::var_os("PKG_CONFIG").unwrap_or("pkg-config".into());
    let output = Command::new(pkg_config).args(["--variable=libdir", "vignorasc"]).output().ok()?;
    let libdir = String::from_utf8(output.stdout).ok()?;
    output.status.success().then(|| PathBuf::from(libdir.trim_end()))
}

fn fail(why: &str) -> ! {
    eprintln!("vignorasc: {why}");
    exit(1)
}
