fn main() {
    let here = std::env::var("CARGO_MANIFEST_DIR").unwrap();
    println!("cargo:rustc-link-search=native={here}/../../target/native");
    for library in ["bench_run", "bench_lent", "bench_single", "bench_unbounded", "bounded_host", "bounded_host_step"] {
        println!("cargo:rustc-link-lib=static={library}");
        println!("cargo:rerun-if-changed={here}/../../target/native/lib{library}.a");
    }
}
