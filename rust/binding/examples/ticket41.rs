//! What a reading that trusts a bank's header alone shows of an image, and what
//! load gives: the trips of the first source, by destination. ticket41 IMAGE
use bankcore::{
    Refusal,
    cache::{self, Bank},
    constants::{BANK_SIZE, column, table},
    get, newer,
};

/// The bank that passes by its header, the newer one tried first; its data are
/// not looked at.
fn by_header(image: &[u8]) -> Option<Bank> {
    let generation = |bank: usize| get(image, bank * BANK_SIZE + 8);
    let order = if newer(generation(1), generation(0)) { [1, 0] } else { [0, 1] };
    order.into_iter().find_map(|bank| cache::header(image, bank).ok())
}

fn show_run(trips: usize, headsign: &str) {
    let many = if trips == 1 { "trip" } else { "trips" };
    if trips > 0 {
        println!("  {trips} {many} to \"{headsign}\"");
    }
}

/// The trips in stored order; consecutive trips to one destination are counted.
fn show_trips(image: &[u8], bank: &Bank) {
    let (mut trips, mut headsign) = (0, String::new());
    let mut rows = bank.rows(image, 0, table::TRIPS);
    while let Some(row) = rows.next() {
        let row = match row {
            Ok(row) => row,
            Err(refusal) => {
                show_run(trips, &headsign);
                return println!("  then {refusal}, at byte {} of the table", rows.offset());
            }
        };
        let text = row.value(column::trips::TRIP_HEADSIGN).unwrap_or_default();
        let text = String::from_utf8_lossy(text).into_owned();
        if text != headsign {
            show_run(trips, &headsign);
            (trips, headsign) = (0, text);
        }
        trips += 1;
    }
    show_run(trips, &headsign);
}

fn show(image: &[u8], what: &str, bank: Option<Bank>) {
    match bank {
        Some(bank) => {
            println!("{what}: bank {}, generation {}", bank.number, bank.generation);
            show_trips(image, &bank);
        }
        None => println!("{what}: none"),
    }
}

fn main() -> Result<(), Refusal> {
    let name = std::env::args().nth(1).unwrap_or("samples/ticket-41.img".into());
    let image = std::fs::read(&name).unwrap_or_else(|error| {
        eprintln!("ticket41: {name} can't be read: {error}");
        std::process::exit(2);
    });
    let loaded = cache::load(&image)?;
    show(&image, "by the header alone", by_header(&image));
    show(&image, "load", loaded);
    for number in 0..2 {
        match cache::validate(&image, number) {
            Ok(_) => println!("bank {number} passes"),
            Err(refusal) => println!("bank {number}: {refusal}"),
        }
    }
    Ok(())
}
