//! Links the library: GUVRENDIK_LIBRARY is the object that `bench/run` makes of the delivered archive, with the calls of shim.c.

fn main() {
    let library = std::env::var("GUVRENDIK_LIBRARY").expect("bench/run says where the library is");
    println!("cargo:rustc-link-arg-bins={library}");
    println!("cargo:rerun-if-changed={library}");
    println!("cargo:rerun-if-env-changed=GUVRENDIK_LIBRARY");
}
