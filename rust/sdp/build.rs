//! Links the archive libsdp.a: for x86-64 Linux that of target/staticlib (`./archive`), for Arm Linux that of target/arm
//! (`./archive --arm`), or that of the folder that RATTLE_STATICLIB names.
fn main() {
    let here = std::env::var("CARGO_MANIFEST_DIR").unwrap();
    let target = std::env::var("TARGET").unwrap();
    let (folder, command) = if target.starts_with("x86_64-unknown-linux-") {
        ("staticlib", "./archive")
    } else if target.starts_with("aarch64-unknown-linux-") {
        ("arm", "./archive --arm")
    } else {
        stop(&format!("the archive libsdp.a can be made for Linux on x86-64 and on Arm, and this build is for {target}"))
    };
    let folder = std::env::var("RATTLE_STATICLIB").unwrap_or(format!("{here}/../../target/{folder}"));
    let archive = format!("{folder}/libsdp.a");
    println!("cargo:rerun-if-changed={archive}");
    println!("cargo:rerun-if-env-changed=RATTLE_STATICLIB");
    if !std::path::Path::new(&archive).is_file() {
        stop(&format!("there is no {archive}: {command} makes it for {target}; RATTLE_STATICLIB names its folder"));
    }
    println!("cargo:rustc-link-search=native={folder}");
    println!("cargo:rustc-link-lib=static=sdp");
}

/// cargo shows what a build script that fails has written.
fn stop(why: &str) -> ! {
    eprintln!("{why}");
    std::process::exit(1)
}
