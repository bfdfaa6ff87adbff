//! Has the static library of the changes linked.

fn main() {
    archive::link("trial");
}
