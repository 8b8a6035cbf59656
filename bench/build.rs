//! With the feature `proved`, tells the linker where `libyard_c.a` and `libschedule_c.a` lie, with the feature `coop` where
//! `libcoop_c.a` does: the directory in the variable YARD_LIB_DIR, or `lib` beside this file.

use std::env;

fn main() {
    println!("cargo:rerun-if-env-changed=YARD_LIB_DIR");
    let package = env::var("CARGO_MANIFEST_DIR").expect("set by cargo");
    let dir = env::var("YARD_LIB_DIR").unwrap_or(format!("{package}/lib"));
    let libraries: [(&str, &[&str]); 2] = [
        ("CARGO_FEATURE_PROVED", &["yard_c", "schedule_c"]),
        ("CARGO_FEATURE_COOP", &["coop_c"]),
    ];
    for (feature, libraries) in libraries {
        if env::var_os(feature).is_none() {
            continue;
        }
        println!("cargo:rustc-link-search=native={dir}");
        for library in libraries {
            println!("cargo:rerun-if-changed={dir}/lib{library}.a");
        }
    }
}
