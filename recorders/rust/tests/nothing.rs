// No lock at all.
fn main() {
    println!("x");
    std::process::exit(std::env::args().nth(1).map_or(0, |word| word.parse().unwrap()));
}
