// A plain walker over all schedules of a model, written by hand for speed: what the bench's search is measured against.
// It reads a sound model with its last G line on standard input and prints what the list program prints. With the
// argument 'count' it prints how many schedules it entered, and the tries.

mod config;
mod model;
mod table;
mod walk;

use model::Model;
use std::io::{read_to_string, sink, stdin, stdout, BufWriter, Write};
use table::Table;
use walk::Walk;

fn main() {
    let count = match std::env::args().nth(1).as_deref() {
        None => false,
        Some("count") => true,
        Some(other) => panic!("there is no '{other}': the one argument is count"),
    };
    let file = read_to_string(stdin()).expect("standard input could not be read");
    let mut model = Model::read(&file);
    // The walk has the one table; the model keeps none.
    let table = std::mem::replace(&mut model.table, Table::fixed());
    if count {
        let mut walk = Walk::new(&model, table, sink());
        walk.whole();
        println!("entered {} tries {}", walk.entered, walk.tries());
    } else {
        let mut walk = Walk::new(&model, table, BufWriter::new(stdout()));
        let word = if walk.whole() { "end" } else { "stop" };
        let (tries, refused) = (walk.tries(), walk.refused_for_size);
        writeln!(walk.out, "{word} {tries} {refused}").expect("the output could not be written");
        walk.out.flush().expect("the output could not be written");
    }
}
