//! Loads a board's image and shows the bank in use: its numbers, its sources, its
//! tables' rows. show IMAGE
use bankcore::{
    Refusal,
    cache::{self, Bank},
    constants::{REGION_SIZE, TABLE_NAMES, TABLES},
};

fn show_bank(image: &[u8], number: u32) {
    match cache::validate(image, number) {
        Ok(bank) => println!("bank {number}: generation {}", bank.generation),
        Err(refusal) => println!("bank {number}: {refusal}"),
    }
}

/// How many rows a table has after its names line, and whether one is malformed;
/// nothing if the table is absent.
fn show_table(image: &[u8], bank: &Bank, source: u32, table: usize) {
    let mut rows = bank.rows(image, source, table as u32);
    let mut count = 0;
    while let Some(row) = rows.next() {
        if let Err(refusal) = row {
            return println!("  {}: {refusal} at {}", TABLE_NAMES[table], rows.offset());
        }
        count += 1;
    }
    if rows.offset() > 0 {
        println!("  {}: rows {count}", TABLE_NAMES[table]);
    }
}

fn show(image: &[u8]) -> Result<(), Refusal> {
    let loaded = cache::load(image)?;
    show_bank(image, 0);
    show_bank(image, 1);
    let Some(bank) = loaded else {
        println!("load: none");
        return Ok(());
    };
    println!(
        "load: bank {}, generation {}, {} bytes, sources {}, key length {}, checked {}",
        bank.number,
        bank.generation,
        bank.length,
        bank.count,
        bank.key_length,
        bank.checked_at()
    );
    for i in 0..bank.count {
        let source = bank.source(image, i)?;
        println!("source {i}: {} to {}", source.start, source.end);
        for table in 0..TABLES {
            show_table(image, &bank, i, table);
        }
    }
    Ok(())
}

fn main() {
    let Some(name) = std::env::args().nth(1) else {
        eprintln!("show: name one image, of {REGION_SIZE} bytes");
        std::process::exit(2);
    };
    let image = std::fs::read(&name).unwrap_or_else(|error| {
        eprintln!("show: {name} can't be read: {error}");
        std::process::exit(2);
    });
    if let Err(refusal) = show(&image) {
        println!("load: {refusal}");
        std::process::exit(1);
    }
}
