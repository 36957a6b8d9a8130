include!("../link.rs");

fn main() {
    link("probe");
}
