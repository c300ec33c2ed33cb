//! Builds the C yardstick with the machine's compiler at its highest optimisation.

use std::env;
use std::path::PathBuf;
use std::process::Command;

fn main() {
    println!("cargo::rerun-if-changed=run.c");
    println!("cargo::rerun-if-env-changed=CC");
    println!("cargo::rerun-if-env-changed=YARDSTICK_MARCH");
    let out = PathBuf::from(env::var_os("OUT_DIR").expect("cargo names a folder for the output"));
    let object = out.join("run.o");
    let archive = out.join("libyardstick_run.a");
    let compiler = env::var_os("CC").unwrap_or_else(|| "cc".into());

    let mut compile = Command::new(compiler);
    compile.args(["-O3", "-fPIC", "-Wall", "-Wextra", "-c", "run.c", "-o"]).arg(&object);
    // `native` is the machine that builds, which is another one than the target's where the build is for another processor;
    // there YARDSTICK_MARCH may name the target's.
    match env::var("YARDSTICK_MARCH") {
        Ok(march) => drop(compile.arg(format!("-march={march}"))),
        Err(_) if env::var_os("HOST") == env::var_os("TARGET") => drop(compile.arg("-march=native")),
        Err(_) => {}
    }
    done(&mut compile);
    done(Command::new("ar").arg("crs").arg(&archive).arg(&object));

    println!("cargo::rustc-link-search=native={}", out.display());
    println!("cargo::rustc-link-lib=static=yardstick_run");
}

fn done(command: &mut Command) {
    let status = command.status().unwrap_or_else(|error| panic!("{command:?}: {error}"));
    assert!(status.success(), "{command:?}: {status}");
}
