//! Compiles the C files: the loops always, the others where their library is installed.
use std::env;
use std::path::{Path, PathBuf};
use std::process::Command;

fn main() {
    println!("cargo:rerun-if-changed=c");
    let compiler = ["gcc", "cc"].into_iter().find(|name| version(name).is_some()).expect("a C compiler: gcc or cc");
    let out = PathBuf::from(env::var_os("OUT_DIR").unwrap());
    let mut objects = vec![compile(compiler, &out, "loops")];
    let mut libraries = Vec::new();
    for (name, header, library) in [("zlib", "zlib.h", "z"), ("isal", "isa-l.h", "isal"), ("pmemobj", "libpmemobj.h", "pmemobj")] {
        println!("cargo:rustc-check-cfg=cfg({name})");
        if installed(compiler, &out, header) {
            println!("cargo:rustc-cfg={name}");
            objects.push(compile(compiler, &out, name));
            libraries.push(library);
        }
    }
    let archive = out.join("libbench_c.a");
    let _ = std::fs::remove_file(&archive);
    let status = Command::new("ar").arg("crs").arg(&archive).args(&objects).status().expect("ar");
    assert!(status.success(), "ar");
    println!("cargo:rustc-link-search=native={}", out.display());
    println!("cargo:rustc-link-lib=static=bench_c");
    for library in libraries {
        println!("cargo:rustc-link-lib={library}");
    }
    println!("cargo:rustc-env=BENCH_CC={}", version(compiler).unwrap());
    println!("cargo:rustc-env=BENCH_RUSTC={}", version(&env::var("RUSTC").unwrap()).unwrap());
}

/// The first line that the program says of its version.
fn version(program: &str) -> Option<String> {
    let output = Command::new(program).arg("--version").output().ok()?;
    String::from_utf8(output.stdout).ok()?.lines().next().map(str::to_owned)
}

/// Whether the compiler finds the header of a library. Cargo looks again if it is put there later.
fn installed(compiler: &str, out: &Path, header: &str) -> bool {
    println!("cargo:rerun-if-changed=/usr/include/{header}");
    let source = out.join("header.c");
    std::fs::write(&source, format!("#include <{header}>\n")).expect("a file for the compiler");
    Command::new(compiler).arg("-fsyntax-only").arg(&source).output().is_ok_and(|output| output.status.success())
}

/// The object file.
fn compile(compiler: &str, out: &Path, name: &str) -> PathBuf {
    let object = out.join(format!("{name}.o"));
    let source = format!("c/{name}.c");
    let status = Command::new(compiler).args(["-O2", "-Wall", "-c", &source, "-o"]).arg(&object).status();
    assert!(status.is_ok_and(|status| status.success()), "{source} does not compile");
    object
}
