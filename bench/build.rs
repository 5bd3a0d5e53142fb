//! Links the peers, if there are any: BENCH_PEERS is the object of peers.cpp, BENCH_PEERS_NAMES has their names.
fn main() {
    println!("cargo:rerun-if-changed=build.rs");
    println!("cargo:rerun-if-env-changed=BENCH_PEERS");
    println!("cargo:rerun-if-env-changed=BENCH_PEERS_NAMES");
    println!("cargo:rustc-check-cfg=cfg(eigen, roaring)");
    let names = std::env::var("BENCH_PEERS_NAMES").unwrap_or_default();
    if names.is_empty() {
        return;
    }
    let object = std::env::var("BENCH_PEERS").expect("BENCH_PEERS is the object of peers.cpp");
    println!("cargo:rerun-if-changed={object}");
    println!("cargo:rustc-link-arg={object}");
    for name in names.split_whitespace() {
        println!("cargo:rustc-cfg={name}");
    }
    if names.contains("roaring") {
        println!("cargo:rustc-link-arg=-lroaring");
    }
    println!("cargo:rustc-link-arg=-lstdc++");
}
