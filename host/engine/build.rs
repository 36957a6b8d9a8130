include!("../link.rs");

fn main() {
    link("seddolki");
}
