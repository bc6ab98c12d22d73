//! Compiles the C of the families that are asked for, by the compiler in CC or by cc, which has to be gcc or clang for a 64-bit target.
use std::path::Path;
use std::process::Command;
use std::{env, fs};

const FAMILIES: [&str; 5] = ["plane", "space", "weighted_plane", "weighted_space", "segments"];

fn runs(command: &mut Command) -> bool {
    command.status().is_ok_and(|status| status.success())
}

fn main() {
    let out = env::var("OUT_DIR").unwrap();
    let out = Path::new(&out);
    let home = Path::new(&env::var("CARGO_MANIFEST_DIR").unwrap()).join("..");
    let compiler = env::var("CC").unwrap_or("cc".into());
    println!("cargo:rerun-if-env-changed=CC");
    let compile = |source: &Path, object: &Path| {
        runs(Command::new(&compiler).args(["-std=gnu99", "-O2", "-fPIC", "-I"]).arg(&home).arg("-c").arg(source).arg("-o").arg(object))
    };

    let mut archive = Command::new("ar");
    archive.arg("rc").arg(out.join("liblnc_predicates.a"));
    for family in FAMILIES {
        let upper = family.to_uppercase();
        println!("cargo:rerun-if-changed={}", home.join(format!("{family}.c")).display());
        if env::var_os(format!("CARGO_FEATURE_{upper}")).is_none() {
            continue;
        }
        let (source, object) = (out.join(format!("lnc_{family}.c")), out.join(format!("{family}.o")));
        fs::write(&source, format!("#define LNC_{upper}_IMPLEMENTATION\n#include \"lnc_{family}.h\"\n")).unwrap();
        assert!(compile(&source, &object), "{compiler} doesn't compile {family}.c");
        archive.arg(object);
    }
    assert!(runs(&mut archive), "ar makes no library");
    println!("cargo:rustc-link-search=native={}", out.display());
    println!("cargo:rustc-link-lib=static=lnc_predicates");
}
