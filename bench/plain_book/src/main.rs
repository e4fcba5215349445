//! The coordinator's book in plain Rust, without contracts, driven through the same made messages as
//! `ug_measure book N`, for a comparison of times. It prints the same lines.

mod book;
mod driver;

fn main() {
    let words: Vec<String> = std::env::args().skip(1).collect();
    let count = match words.as_slice() {
        [job, count] if job == "book" => count.parse::<u64>().ok(),
        _ => None,
    };
    let Some(count) = count else {
        eprintln!("usage: plain_book book N");
        std::process::exit(2);
    };
    driver::drive(count).print();
}
