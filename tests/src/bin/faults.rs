//! Prints the faults that the stand-in can plant: the group that must find it, and its name.

fn main() {
    for (group, fault) in second_program::standin::faults() {
        println!("{group} {fault}");
    }
}
