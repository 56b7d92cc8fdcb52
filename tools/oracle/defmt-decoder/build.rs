//! Puts the stand-ins for the crate's missing modules beside its sources, and stops where a source is not the published one, byte for byte.
use std::path::Path;
use std::process::Command;

fn main() {
    println!("cargo:rerun-if-changed=sums");
    println!("cargo:rerun-if-changed=checked");
    println!("cargo:rerun-if-changed=stand-ins");
    for file in ["elf2table.rs", "log.rs"] {
        let stand_in = std::fs::read(Path::new("stand-ins").join(file)).expect("a stand-in");
        let copy = Path::new("checked/src").join(file);
        // A copy that is already right keeps its time, so that nothing is built again.
        if std::fs::read(&copy).ok().as_ref() != Some(&stand_in) {
            std::fs::write(copy, stand_in).expect("tools/prepare makes the folder");
        }
    }
    let checked =
        Command::new("sha256sum").args(["--check", "--strict", "--quiet", "../sums"]).current_dir("checked").status().expect("sha256sum");
    assert!(checked.success(), "oracle/defmt-decoder/checked does not hold defmt-decoder 1.1.0");
}
