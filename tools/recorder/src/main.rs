// Runs crate qoi on fixed inputs and writes what it answered, as crates/vectors/stdin; how many cases each group has goes to standard error.
// A case is a line: the group's letter; two hex digits, 0 or the number of the refusal; four times sixteen, the figures; the input's bytes.
// Empty lines fill the pages, so that no case crosses a multiple of 65,536 bytes.
mod decode;
mod encode;
mod header;
mod list;
mod pictures;
mod refusal;

use std::io::Write;

fn main() {
    let mut list = list::List::default();
    header::record(&mut list);
    decode::record(&mut list);
    encode::record(&mut list);
    for (group, count) in list.counts() {
        eprintln!("group {group}: {count} cases");
    }
    std::io::stdout()
        .write_all(list.text().as_bytes())
        .expect("the list is written");
}
