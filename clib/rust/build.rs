//! Builds the library: from the assembly for Linux on x86-64 and aarch64, and from squitter.c elsewhere, or if
//! SQUITTER_PORTABLE is set. It calls a C compiler (CC, else cc) and AR, and has no dependencies.
use std::path::{Path, PathBuf};
use std::{env, process::Command};

fn run(command: &mut Command) {
    let status = command.status().unwrap_or_else(|why| panic!("{command:?}: {why}"));
    assert!(status.success(), "{command:?}: {status}");
}

/// Returns the value of a variable for this target, or of the one for all: CC_aarch64_unknown_linux_gnu, or CC.
fn variable(name: &str, target: &str) -> Option<String> {
    let of_target = format!("{name}_{}", target.replace('-', "_"));
    println!("cargo:rerun-if-env-changed={of_target}\ncargo:rerun-if-env-changed={name}");
    env::var(of_target).or_else(|_| env::var(name)).ok()
}

/// Returns the folders of the sources and of the header: native/ in the package, or those of the clone.
fn sources(crate_folder: &Path) -> (PathBuf, PathBuf) {
    let native = crate_folder.join("native");
    if native.exists() {
        return (native.clone(), native);
    }
    (crate_folder.join("../../dist"), crate_folder.join(".."))
}

fn main() {
    let (dist, header) = sources(Path::new(&env::var("CARGO_MANIFEST_DIR").unwrap()));
    let (out, target) = (PathBuf::from(env::var("OUT_DIR").unwrap()), env::var("TARGET").unwrap());
    let (arch, os) = (env::var("CARGO_CFG_TARGET_ARCH").unwrap(), env::var("CARGO_CFG_TARGET_OS").unwrap());
    let assembly = dist.join(format!("libsquitter-{arch}.s"));
    let portable = env::var_os("SQUITTER_PORTABLE").is_some() || os != "linux" || !assembly.exists();
    let source = if portable { dist.join("squitter.c") } else { assembly };
    let (cc, ar) = match target.as_str() {
        "x86_64-pc-windows-gnu" => ("x86_64-w64-mingw32-gcc", "x86_64-w64-mingw32-ar"),
        "aarch64-unknown-linux-gnu" if env::var("HOST").as_deref() != Ok(&target) => {
            ("aarch64-linux-gnu-gcc", "aarch64-linux-gnu-ar")
        }
        _ => ("cc", "ar"),
    };
    let (object, archive) = (out.join("squitter.o"), out.join("libsquitter.a"));
    let cc = variable("CC", &target).unwrap_or_else(|| cc.into());
    run(Command::new(cc).args(["-O2", "-fPIC", "-c", "-I"]).arg(header).arg("-o").arg(&object).arg(&source));
    run(Command::new(variable("AR", &target).unwrap_or_else(|| ar.into())).arg("rcs").arg(archive).arg(object));
    println!("cargo:rustc-link-search=native={}\ncargo:rustc-link-lib=static=squitter", out.display());
    println!("cargo:rerun-if-changed={}\ncargo:rerun-if-env-changed=SQUITTER_PORTABLE", source.display());
}
