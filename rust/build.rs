// Says where libgrib1.a is: the file that GRIB1_ARCHIVE names, or where tools/archive puts it in this repository. And
// says, before a linker does, where no program can be linked with it.
use std::env;
use std::path::PathBuf;

fn main() {
    println!("cargo:rerun-if-env-changed=GRIB1_ARCHIVE");
    if env::var_os("CARGO_FEATURE_DRIVER").is_some() {
        return;
    }
    let part = |name: &str| env::var(name).expect("cargo names the target");
    let (processor, system) = (part("CARGO_CFG_TARGET_ARCH"), part("CARGO_CFG_TARGET_OS"));
    if (processor.as_str(), system.as_str()) != ("x86_64", "linux") {
        panic!(
            "libgrib1.a is x86-64 Linux code, which no program for {processor} {system} can link: build for an x86_64 Linux target and run that program under an \
             emulator (README.md, \"On another processor\")"
        );
    }
    let here = PathBuf::from(env::var_os("CARGO_MANIFEST_DIR").expect("cargo names this folder"));
    let archive = match env::var_os("GRIB1_ARCHIVE") {
        Some(file) => PathBuf::from(file),
        None => here.join("../target/staticlib/libgrib1.a"),
    };
    if !archive.is_file() {
        panic!("no archive at {}: run tools/archive, or name it by GRIB1_ARCHIVE", archive.display());
    }
    println!("cargo:rerun-if-changed={}", archive.display());
    println!("cargo:rustc-link-search=native={}", archive.parent().expect("a file has a folder").display());
    println!("cargo:rustc-link-lib=static=grib1");
}
