//! Compiles the shims over std::map and LMDB with the machine's own compilers; where LMDB is not
//! installed, that of std::map alone.

use std::env;
use std::path::{Path, PathBuf};
use std::process::Command;

fn main() {
    let out = PathBuf::from(env::var_os("OUT_DIR").expect("cargo names a folder"));
    let mut shims = vec![compile(&out, "c++", &["-std=c++17"], "std_map.cpp")];
    println!("cargo:rustc-check-cfg=cfg(lmdb)");
    let lmdb = has_lmdb(&out);
    if lmdb {
        shims.push(compile(&out, "cc", &["-std=c11"], "lmdb.c"));
        println!("cargo:rustc-cfg=lmdb");
    }
    let archive = out.join("libshims.a");
    let _ = std::fs::remove_file(&archive);
    let status = Command::new("ar").arg("crs").arg(archive).args(shims).status().expect("ar runs");
    assert!(status.success(), "the shims could not be put together");
    println!("cargo:rerun-if-changed=shims");
    println!("cargo:rerun-if-changed=/usr/include/lmdb.h");
    println!("cargo:rustc-link-search=native={}", out.display());
    println!("cargo:rustc-link-lib=static=shims");
    println!("cargo:rustc-link-lib=stdc++");
    if lmdb {
        println!("cargo:rustc-link-lib=lmdb");
    }
}

/// Whether a program over LMDB compiles and links.
fn has_lmdb(out: &Path) -> bool {
    let source = out.join("try.c");
    std::fs::write(
        &source,
        "#include <lmdb.h>\nint main(void) { return mdb_version(0, 0, 0) == 0; }\n",
    )
    .expect("the folder can be written");
    let tried =
        Command::new("cc").arg(&source).arg("-llmdb").arg("-o").arg(out.join("try")).output();
    tried.is_ok_and(|tried| tried.status.success())
}

fn compile(out: &Path, compiler: &str, words: &[&str], source: &str) -> PathBuf {
    let object = out.join(source).with_extension("o");
    let status = Command::new(compiler)
        .args(words)
        .args(["-O3", "-Wall", "-Wextra", "-fPIC", "-c"])
        .arg(Path::new("shims").join(source))
        .arg("-o")
        .arg(&object)
        .status()
        .unwrap_or_else(|error| panic!("{compiler} does not run: {error}"));
    assert!(status.success(), "{source} does not compile");
    object
}
