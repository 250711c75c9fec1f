//! Links libFuzzer into the fuzzer: FUZZ_RUNTIME is the path of its archive.

fn main() {
    println!("cargo:rerun-if-env-changed=FUZZ_RUNTIME");
    if let Ok(runtime) = std::env::var("FUZZ_RUNTIME") {
        println!("cargo:rustc-link-arg-bin=fuzzer={runtime}");
        println!("cargo:rustc-link-arg-bin=fuzzer=-lstdc++");
    }
}
