//! Prints the table of costs: `costs FILE1 .. FILE8`, accepted files of one to eight configurations.
mod begin;
mod check;
mod pec;
mod plain;
mod reply;
mod stack;
mod times;

fn main() {
    let texts: Vec<Vec<u8>> = std::env::args().skip(1).map(|name| std::fs::read(name).expect("the file is there")).collect();
    let eight = texts.last().expect("accepted files");
    println!("{:<44} {:>9} {:>9} {:>6} {:>5}", "cost", "proved", "plain", "ratio", "goal");
    for row in pec::rows().into_iter().chain(check::rows(eight)).chain(reply::rows(eight)).chain(begin::rows(eight)) {
        row.print();
    }
    println!();
    check::print_growth(&texts);
    println!();
    begin::print_growth(&texts);
    println!();
    stack::print(eight);
}
