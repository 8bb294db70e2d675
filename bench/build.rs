//! Links the two libraries of C calls that ./run names: the proved one and the hand-written one.

fn main() {
    for name in ["FIRMWARE_LIB", "PLAIN_OBJECT"] {
        println!("cargo:rerun-if-env-changed={name}");
        let file = std::env::var(name).unwrap_or_else(|_| panic!("{name} is not set: use bench/run"));
        println!("cargo:rerun-if-changed={file}");
        println!("cargo:rustc-link-arg={file}");
    }
}
