//! Prints the tables of docs/PERFORMANCE.md: `cargo run --release -p bench`. Best of several interleaved repetitions. The
//! ratios go to the output, the times to the error output.
mod checks;
mod circles;
mod expat;
mod files;
mod joins;
mod pages;
mod peers_page;
mod sets;
mod splits;
mod table;
mod timing;

fn main() {
    pages::by_rules_and_depth();
    pages::by_rules();
    pages::by_states();
    pages::by_length();
    pages::fragments();
    joins::joins();
    joins::net_depths();
    splits::splits();
    checks::sets();
    checks::by_rounds();
    checks::of_many_rules();
    checks::by_images();
    checks::by_rules();
    peers_page::against_peers();
}
