//! Runs the lifted functions alone through an update, to show that they work with
//! their stand-ins: nothing of the core is called here.
use crate::{
    cache::{
        BANK_SIZE, Bank, Metadata, OFFSET, Storage,
        door::{self, BankFields, SourceFields, Update},
    },
    gtfs::{Date, Error, Table, csv::values::Values, mobility::Snapshot},
    standins::{
        flash::{Flash, Operation},
        settings,
    },
    timetable_display::{Config, feed::Builder, freshness::Freshness},
};

const NOW: i64 = 1_790_000_000;
const ROUTES: [[&str; 3]; 3] = [["r1", "7", "0"], ["r\"2", "8, 9", "3"], ["r3", "", "700"]];
const NAMED: [&str; 5] = ["7", "r", "", "s", "n"];
const CODED: [&str; 5] = ["7", "r", "c", "s", "n"];

/// Settings with these picks (line, route, stop code, stop, stop name).
fn config(picks: &[[&str; 5]]) -> Config {
    settings::config(picks).unwrap()
}

/// The appends of one update, up to the commit.
fn fill(update: &mut Update<'_, Flash>, config: &Config, rows: &[[&str; 3]]) -> Result<(), Error> {
    update.key(config)?;
    let mut source = SourceFields {
        start: 20260101,
        end: 20261231,
        present: 1,
        updated: NOW - 100,
        snapshot: Some(Snapshot::from_parts("mdb-1", "202601020304")?),
        ..SourceFields::default()
    };
    source.original[0] = [1, 2];
    source.validator.0[..3].copy_from_slice(&[1, 0, b'e']);
    update.source(source)?;
    update.start(Table::Routes)?;
    for row in rows {
        let columns = door::columns(Table::Routes).iter().copied();
        let values = Values::new(Table::Routes, columns.zip(row.iter().copied()));
        update.row(values.record())?;
    }
    update.end(Table::Routes);
    update.end_source();
    Ok(())
}

fn update(flash: &Flash, config: &Config, rows: &[[&str; 3]]) -> Result<Bank, Error> {
    let active = door::load(flash)?;
    let mut metadata = Metadata::default();
    let mut update = Update::new(flash, active, false, NOW, &mut metadata);
    fill(&mut update, config, rows)?;
    update.commit()
}

fn unchanged(flash: &Flash, config: &Config, rows: &[[&str; 3]]) -> Result<bool, Error> {
    let active = door::load(flash)?;
    let mut metadata = Metadata::default();
    let mut update = Update::new(flash, active, true, NOW, &mut metadata);
    fill(&mut update, config, rows)?;
    update.unchanged()
}

/// Checks, each with its outcome.
type Checks = Vec<(&'static str, bool)>;

fn generation(flash: &Flash) -> Result<Option<u32>, Error> {
    Ok(door::load(flash)?.map(|b| BankFields::from(b).generation))
}

fn before_updates(flash: &Flash, chosen: &Config) -> Result<Checks, Error> {
    let expected = [
        &[255, 1, 0, 65, 2][..],
        &[1, 55, 1, 114, 0, 1, 115, 1, 110],
        &[1, 55, 1, 114, 1, 99, 1, 115, 0],
    ];
    Ok(vec![
        ("an empty flash has no bank", door::load(flash)?.is_none()),
        ("the key is document 01's", door::key(chosen, b"A")? == expected.concat()),
    ])
}

fn first_update(flash: &Flash, bank: Bank, chosen: &Config) -> Result<Checks, Error> {
    let operations = flash.operations.borrow().clone();
    let word = Operation::Write { offset: OFFSET + 44, bytes: door::COMMIT.to_le_bytes().into() };
    let fields = BankFields::from(bank);
    let loaded = door::load(flash)?.map(BankFields::from) == Some(fields)
        && fields.offset == OFFSET
        && fields.generation == 0
        && fields.count == 1
        && fields.version == 3;
    Ok(vec![
        ("an update of one page makes 5 operations", operations.len() == 5),
        ("its last write is the commit word", operations.last() == Some(&word)),
        ("load gives the bank", loaded),
        ("its key matches", door::same_key(bank, flash, chosen)?),
        ("another key doesn't", !door::same_key(bank, flash, &config(&[NAMED]))?),
    ])
}

fn stored_source(flash: &Flash, bank: Bank) -> Result<Checks, Error> {
    let source = door::source(bank, flash, 0)?;
    let decoded = source.start == 20260101
        && source.end == 20261231
        && source.present == 1
        && source.updated == NOW - 100
        && source.original[0] == [1, 2]
        && source.snapshot.is_some_and(|s| s.feed_id() == "mdb-1")
        && source.validator.0[..3] == [1, 0, b'e'];
    let mut record = [0; 384];
    source.encode(&mut record);
    let mut stored = [0; 384];
    flash.read(OFFSET + 48, &mut stored)?;
    let encoded = record == stored && SourceFields::decode(&record) == source;
    let manifest = source.manifest()?;
    let routes = Table::ALL.iter().all(|&t| manifest.get(t).is_some() == (t == Table::Routes));
    Ok(vec![
        ("the source decodes", decoded),
        ("and encodes as stored", encoded),
        ("a source past the count is refused", door::source(bank, flash, 1).is_err()),
        ("its manifest has Routes alone", routes),
    ])
}

fn stored_table(flash: &Flash, bank: Bank) -> Result<Checks, Error> {
    let source = door::source(bank, flash, 0)?;
    let [offset, length, crc] = source.tables[Table::Routes as usize];
    let mut stored = vec![0; length as usize];
    flash.read(OFFSET + door::SECTOR + offset, &mut stored)?;
    let text = "route_id,route_short_name,route_type\nr1,7,0\n\"r\"\"2\",\"8, 9\",3\nr3,,700\n";
    Ok(vec![
        ("the table is stored as rows", stored == text.as_bytes()),
        ("with its CRC", crc32fast::hash(&stored) == crc),
    ])
}

fn freshness(flash: &Flash, bank: Bank) -> Result<Checks, Error> {
    let source = door::source(bank, flash, 0)?;
    let dates = [Date::new(2026, 12, 30)?, Date::new(2026, 12, 31)?, Date::new(2027, 1, 1)?];
    let builder = Builder { dates, wanted: 7 };
    let known = Freshness { checked_at: Some(NOW), source_updated_at: Some(NOW - 100) };
    let fresh = door::fresh(bank, flash, &builder, NOW)? == known
        && door::fresh(bank, flash, &builder, NOW - 101)? == Freshness::default();
    Ok(vec![
        ("the mask has two of three days", source.mask(dates) == 3),
        ("freshness answers", fresh),
    ])
}

fn compared(flash: &Flash, chosen: &Config) -> Result<Checks, Error> {
    Ok(vec![
        ("the same again is unchanged", unchanged(flash, chosen, &ROUTES)?),
        ("a row less isn't", !unchanged(flash, chosen, &ROUTES[..2])?),
        ("comparing makes no operation", flash.operations.borrow().len() == 5),
    ])
}

fn second_update(flash: &Flash, chosen: &Config) -> Result<Checks, Error> {
    let second = BankFields::from(update(flash, chosen, &ROUTES[..2])?);
    let next = second.offset == OFFSET + BANK_SIZE && second.generation == 1;
    let mut checks = vec![
        ("the next update goes to bank 1, generation 1", next),
        ("load gives it", generation(flash)? == Some(1)),
    ];
    flash.write(second.offset + door::SECTOR, &[0])?;
    checks.push(("a broken one is refused", door::validate(flash, second.offset).is_err()));
    checks.push(("and passed over by load", generation(flash)? == Some(0)));
    Ok(checks)
}

fn uncommitted(flash: &Flash, chosen: &Config) -> Result<Checks, Error> {
    flash.current.set(false);
    let obsolete = update(flash, chosen, &ROUTES).is_err();
    flash.current.set(true);
    flash.operations.borrow_mut().clear();
    flash.cut.set(Some(4));
    let cut = update(flash, chosen, &ROUTES).is_err();
    flash.cut.set(None);
    Ok(vec![
        ("an obsolete update isn't committed", obsolete),
        ("a cut update gives no answer", cut),
        ("and leaves the other bank", generation(flash)? == Some(0)),
    ])
}

fn filter() -> Checks {
    let mut bits = [0_u8; 64];
    vec![
        ("an empty filter has no trip", !door::bloom(&mut bits, "trip", false)),
        ("nor before it is inserted", !door::bloom(&mut bits, "trip", true)),
        ("then it has", door::bloom(&mut bits, "trip", false)),
        ("by four bits", bits.iter().map(|b| b.count_ones()).sum::<u32>() == 4),
    ]
}

/// Every check made, with its outcome.
pub fn smoke() -> Result<Checks, Error> {
    let chosen = config(&[NAMED, CODED, NAMED, CODED, NAMED]);
    let flash = Flash { identity: b"A".to_vec(), ..Flash::default() };
    let mut checks = before_updates(&flash, &chosen)?;
    let bank = update(&flash, &chosen, &ROUTES)?;
    checks.extend(first_update(&flash, bank, &chosen)?);
    checks.extend(stored_source(&flash, bank)?);
    checks.extend(stored_table(&flash, bank)?);
    #[cfg(feature = "reader")]
    checks.push((
        "the lifted reader gives the rows back",
        door::rows(&flash, bank, 0, Table::Routes)? == ROUTES,
    ));
    checks.extend(freshness(&flash, bank)?);
    checks.extend(compared(&flash, &chosen)?);
    checks.extend(second_update(&flash, &chosen)?);
    checks.extend(uncommitted(&flash, &chosen)?);
    checks.extend(filter());
    Ok(checks)
}

#[cfg(test)]
#[test]
fn all_hold() {
    for (what, holds) in smoke().unwrap() {
        assert!(holds, "{what}");
    }
}
