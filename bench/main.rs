// Times the library's calls beside the same by hand, and holds their results to each other. See README.md.
mod agree;
mod bound;
mod layout;
mod port;
mod rows;
mod texts;
mod timing;

fn main() {
    let rounds = std::env::args()
        .nth(1)
        .map_or(31, |n| n.parse().expect("a number of rounds"));
    agree::some(30000);
    let wanted = std::env::args().nth(2).unwrap_or_default();
    let mut rows = timing::Rows::new(wanted);
    rows::calls(&mut rows);
    rows::tables(&mut rows);
    rows::reopens(&mut rows);
    rows::vectors(&mut rows);
    rows::groups(&mut rows);
    rows.run(rounds);
}
