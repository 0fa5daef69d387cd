//! The calls of `cache` on the sample images, and with wrong arguments.
use bankcore::{
    Refusal, banks,
    cache::{
        self, Checking, JoinedPicks, JoinedValues, Kind, Operation, Picks, Source, Turn, Values,
        Writer,
    },
    constants::*,
    crc32, get, update,
};

fn sample(name: &str) -> Vec<u8> {
    let path = format!("{}/../../samples/{name}.img", env!("CARGO_MANIFEST_DIR"));
    std::fs::read(path).unwrap()
}

#[test]
fn refusals_have_their_numbers_and_words() {
    for (refusal, number) in Refusal::ALL.into_iter().zip(1..) {
        assert_eq!((Refusal::of(number), refusal.number()), (Some(refusal), number));
        assert_eq!(refusal.to_string(), format!("refusal {number} {}", refusal.word()));
    }
    assert_eq!((Refusal::Row.number(), Refusal::Row.word()), (14, "row"));
    assert_eq!((Refusal::LastKeeper.number(), Refusal::LastKeeper.word()), (19, "last keeper"));
    assert_eq!(Refusal::of(0), None);
    assert_eq!(Refusal::of(24), None);
}

#[test]
fn load_gives_the_newer_bank_or_the_one_that_passes() {
    let image = sample("two-good");
    let bank = cache::load(&image).unwrap().unwrap();
    assert_eq!((bank.number, bank.generation, bank.count), (1, 8, 2));
    assert_eq!(cache::validate(&image, 1), Ok(bank));
    assert_eq!(cache::load(&sample("ticket-41")).unwrap().unwrap().number, 0);
    assert_eq!(cache::load(&sample("fresh")), Ok(None));
    for n in 3..8 {
        let refused = cache::validate(&sample(&format!("refusal-{n}")), 0);
        assert_eq!(refused.map_err(Refusal::number), Err(n));
    }
}

#[test]
fn nothing_is_asked_of_the_caller() {
    let image = sample("two-good");
    let bank = cache::load(&image).unwrap().unwrap();
    for length in [0, 1, REGION_SIZE - 1] {
        assert_eq!(cache::load(&image[..length]), Err(Refusal::Region));
        assert_eq!(bank.source(&image[..length], 0), Err(Refusal::Region));
    }
    assert_eq!(cache::validate(&image, 2), Err(Refusal::Argument));
    assert_eq!(cache::header(&image, u32::MAX), Err(Refusal::Argument));
    assert_eq!(bank.source(&image, 2), Err(Refusal::Source));
    assert_eq!(bank.source(&image, u32::MAX), Err(Refusal::Source));
    let days = [20260601, 20260602, 20260229];
    assert_eq!(bank.fresh(&image, days, [true, true, false], 0), Err(Refusal::Argument));
    let none = Picks { texts: &[], lengths: &[] };
    assert_eq!(bank.same_key(&image, &[65; 65536], none), Err(Refusal::Identity));
    assert_eq!(cache::key(b"A", none, &mut [0; 4]), Err(Refusal::Small));
    assert_eq!(cache::row(8, Values { texts: &[], lengths: &[] }, &mut []), Err(Refusal::Argument));
    assert_eq!(cache::bloom(&mut [], b"t1", true), Err(Refusal::Argument));
    let (mut out, mut ends) = ([7; 4], [7; 1]);
    assert_eq!(bank.row(&image, 0, 0, 0, &mut out, &mut ends), Err(Refusal::Small));
    assert_eq!(bank.row(&image, 0, 0, usize::MAX, &mut out, &mut ends), Err(Refusal::Row));
    assert_eq!((out, ends), ([7; 4], [7; 1]));
}

#[test]
fn a_key_and_a_row_are_those_of_document_01() {
    let picks = Picks { texts: b"7rsn", lengths: &[1, 1, 0, 1, 1] };
    let mut out = [0; 16];
    assert_eq!(cache::key(&[], picks, &mut out), Ok(10));
    assert_eq!(out[..10], [1, 1, 55, 1, 114, 0, 1, 115, 1, 110]);
    let values = Values { texts: b"a\"b,", lengths: &[3, 1] };
    assert_eq!(cache::row(6, values, &mut out), Ok(11));
    assert_eq!(&out[..11], b"\"a\"\"b\",\",\"\n");
}

#[test]
fn a_record_is_its_bytes_again() {
    for name in ["two-good", "three-sources", "version-1", "version-2", "id-length-200"] {
        let image = sample(name);
        let bank = cache::load(&image).unwrap().unwrap();
        for i in 0..bank.count {
            let mut bytes = [0; RECORD_SIZE];
            assert_eq!(banks::source(&image, bank.number, i, &mut bytes), 0);
            let source = bank.source(&image, i).unwrap();
            assert_eq!((source, source.encode()), (Source::decode(&bytes), bytes));
        }
    }
}

#[test]
fn turns_sum_to_the_data_and_give_the_verdict() {
    let image = sample("ticket-41");
    for (number, verdict) in [(0, Ok(Turn::Good)), (1, Err(Refusal::Data))] {
        let bank = cache::header(&image, number).unwrap();
        let mut checking = Checking::new(&image, number).unwrap();
        let mut sum = 0;
        let last = loop {
            match checking.turn(&image, 100) {
                Ok(Turn::Hashed(n)) => sum += n,
                last => break last,
            }
        };
        assert_eq!((sum, last), (bank.length, verdict));
        assert_eq!(checking.turn(&image, 100), verdict);
    }
}

#[test]
fn a_checking_state_may_be_any_bytes() {
    let image = sample("two-good");
    let kept = Checking::new(&image, 1).unwrap().bytes();
    assert_eq!(Checking::from_bytes(kept).turn(&image, 10), Ok(Turn::Hashed(10)));
    for (place, byte) in [(0, 2), (3, 1), (6, 255), (7, 1)] {
        let mut bytes = kept;
        bytes[place] = byte;
        let mut forged = Checking::from_bytes(bytes);
        assert_eq!(forged.turn(&image, 10), Err(Refusal::Turn));
        assert_eq!(forged.bytes(), bytes);
    }
    let mut past = kept;
    bankcore::put(&mut past, 4, cache::validate(&image, 1).unwrap().length + 1);
    assert_eq!(Checking::from_bytes(past).turn(&image, 10), Err(Refusal::Turn));
    assert_eq!(get(&past, 0), 1);
}

#[test]
fn a_writer_may_be_any_bytes() {
    let mut image = sample("two-good");
    let before = image.clone();
    let source = cache::load(&image).unwrap().unwrap().source(&image, 0).unwrap();
    let bytes = [255; update::SIZE];
    let mut forged = Writer::from_bytes(bytes);
    assert_eq!(forged.source(&source), Err(Refusal::Turn));
    assert_eq!(forged.table(0), Err(Refusal::Turn));
    assert_eq!(forged.append(b"a"), Err(Refusal::Turn));
    assert_eq!(forged.end(), Err(Refusal::Turn));
    assert_eq!(forged.close(), Err(Refusal::Turn));
    assert_eq!(forged.due(&mut image), Err(Refusal::Turn));
    assert_eq!(forged.unchanged(&image), Err(Refusal::Turn));
    assert_eq!(forged.commit(&mut image, None, true), Err(Refusal::Turn));
    assert_eq!(forged.commit_word(&mut image), Err(Refusal::Turn));
    assert!(image == before && forged.bytes() == bytes);
    assert_eq!(Writer::begin(&image[1..], false, 0), Err(Refusal::Region));
    let kept = Writer::begin(&image, false, 0).unwrap().bytes();
    assert_eq!(Writer::from_bytes(kept).append(&[7; 300]), Ok(256));
}

#[test]
fn a_refused_call_leaves_the_writer() {
    let mut image = sample("two-good");
    let mut writer = Writer::begin(&image, false, 0).unwrap();
    writer.append(b"key").unwrap();
    let before = (image.clone(), writer);
    assert_eq!(writer.table(table::ROUTES), Err(Refusal::Turn));
    assert_eq!(writer.table(8), Err(Refusal::Argument));
    assert_eq!(writer.append(&vec![0; CAPACITY - 2]), Err(Refusal::Full));
    assert_eq!(writer.commit(&mut image, None, true), Err(Refusal::Turn));
    assert_eq!(writer.due(&mut image[1..]), Err(Refusal::Region));
    assert_eq!(writer.due(&mut image), Ok(false));
    assert!((image, writer) == before);
}

/// States of an update and forged ones: the calls that leave the sources copy back
/// all that can have changed.
#[test]
fn what_a_call_leaves_is_not_copied_back() {
    let mut region = sample("two-good");
    let mut state = update::State::new(&region, false, 7).0;
    let values = Values { texts: b"a,b\"", lengths: &[1, 2, 1] };
    for i in 0..400u32 {
        let (piece, n) = ([i as u8; 300], (i * 37 % 301) as usize);
        let mut bytes = state.to_bytes();
        bytes[(i * 1_009) as usize % update::SIZE] ^= 1 << (i % 8);
        for was in [state, update::State::from_bytes(bytes)] {
            let (mut part, mut whole) = (was, was);
            assert_eq!(part.append(&piece[..n]), whole.append_whole(&piece[..n]));
            assert!(part == whole);
            let (mut here, mut there) = (region.clone(), region.clone());
            assert_eq!(part.due(&mut here), whole.due_whole(&mut there));
            assert!(part == whole && here == there);
            let row = part.upper_row(&mut here, values);
            assert_eq!(row, whole.upper_row_whole(&mut there, values));
            assert!(part == whole && here == there);
        }
        state.append(&piece[..n]);
        if i % 3 == 0 {
            state.due(&mut region);
        }
        if i % 50 == 9 {
            state.source(&[i as u8; 384]);
            state.table(i % 8);
        }
    }
}

/// The flash model of document 01, on a chip that a driver writes.
fn driven(chip: &mut [u8], operation: Operation, region: &[u8]) {
    let bytes = operation.range();
    match operation.kind {
        Kind::Compare => (),
        Kind::Erase => chip[bytes].fill(255),
        Kind::Write | Kind::Header | Kind::CommitWord => {
            chip[bytes.clone()].iter_mut().zip(&region[bytes]).for_each(|(old, new)| *old &= new);
        }
    }
}

/// Does the operation that comes next, if there is one, on the region and on a chip
/// beside it, which must then be the same.
fn operated(writer: &mut Writer, region: &mut [u8], chip: &mut [u8]) -> Option<Operation> {
    let next = writer.operation().unwrap()?;
    match next.kind {
        Kind::Header => writer.commit(region, None, true).unwrap(),
        Kind::CommitWord => writer.commit_word(region).unwrap(),
        _ => assert_eq!(writer.due(region), Ok(true)),
    }
    driven(chip, next, region);
    assert!(chip == region);
    Some(next)
}

#[test]
fn a_driver_is_told_each_operation_before_it_is_done() {
    for (name, length) in [("two-good", 5_000), ("both-7", 257), ("two-good", 256)] {
        let mut region = sample(name);
        let source = cache::load(&sample("two-good")).unwrap().unwrap();
        let source = source.source(&sample("two-good"), 0).unwrap();
        let written = u32::from(cache::load(&region).unwrap().is_some_and(|b| b.number == 0));
        for comparing in [true, false] {
            let mut chip = region.clone();
            let mut writer = Writer::begin(&region, comparing, source.updated.unwrap()).unwrap();
            let mut done = vec![];
            let key = [9; 256];
            assert_eq!(writer.append(&key), Ok(256));
            writer.source(&source).unwrap();
            writer.table(table::ROUTES).unwrap();
            let mut bytes = &vec![9; length - 256][..];
            while !bytes.is_empty() {
                done.extend(operated(&mut writer, &mut region, &mut chip));
                bytes = &bytes[writer.append(bytes).unwrap()..];
            }
            writer.end().unwrap();
            writer.close().unwrap();
            while let Some(next) = operated(&mut writer, &mut region, &mut chip) {
                done.push(next);
            }
            assert_eq!(writer.due(&mut region), Ok(false));
            let writes = length.div_ceil(256);
            if comparing {
                assert!(done.iter().all(|o| o.kind == Kind::Compare) && done.len() == writes);
                continue;
            }
            assert_eq!(done.len(), 1 + length.div_ceil(4096) + writes + 2);
            assert!(done.iter().all(|o| o.bank == written));
            assert_eq!(cache::load(&region).unwrap().unwrap().number, written);
        }
    }
    let forged = Writer::from_bytes([1; update::SIZE]);
    assert_eq!(forged.operation(), Err(Refusal::Turn));
}

#[test]
fn an_update_by_upper_calls_reads_back() {
    let mut image = sample("two-good");
    let loaded = cache::load(&image).unwrap().unwrap();
    let source = loaded.source(&image, 0).unwrap();
    let picks = Picks { texts: b"7rsn", lengths: &[1, 1, 0, 1, 1] };
    let mut writer = Writer::upper_begin(&mut image, false, 9, b"A", picks).unwrap();
    writer.upper_source(&mut image, &source).unwrap();
    let stops = Values { texts: b"a,b\"", lengths: &[1, 2, 1] };
    assert_eq!(writer.upper_row(&mut image, stops), Err(Refusal::Turn));
    writer.upper_table(&mut image, table::ROUTES).unwrap();
    assert_eq!(writer.upper_row(&mut image, Values { lengths: &[1], ..stops }), Err(Refusal::Row));
    writer.upper_row(&mut image, stops).unwrap();
    writer.upper_end(&mut image).unwrap();
    writer.upper_close(&mut image).unwrap();
    assert_eq!(writer.due(&mut image), Ok(false));
    writer.commit(&mut image, Some(source.updated.unwrap()), true).unwrap();
    assert_eq!(cache::load(&image), Ok(Some(loaded)));
    writer.commit_word(&mut image).unwrap();
    assert_eq!(writer.commit_word(&mut image), Err(Refusal::Turn));

    let bank = cache::load(&image).unwrap().unwrap();
    assert_eq!((bank.number, bank.generation), (1 - loaded.number, loaded.generation + 1));
    assert_eq!(bank.same_key(&image, b"A", picks), Ok(true));
    assert_eq!(bank.same_key(&image, b"B", picks), Ok(false));
    let (mut out, mut ends) = ([0; 100], [0; 3]);
    let names = bank.row(&image, 0, 0, 0, &mut out, &mut ends).unwrap().unwrap();
    let row = bank.row(&image, 0, 0, names.next, &mut out, &mut ends).unwrap().unwrap();
    assert_eq!((&out[..row.size], ends), (&b"a,b\""[..], [1, 3, 4]));
    assert_eq!(bank.row(&image, 0, 0, row.next, &mut out, &mut ends), Ok(None));
}

/// Every row, value by value, as the call with lent outputs reads it.
#[test]
fn rows_and_values_are_those_of_the_call() {
    for name in ["two-good", "three-sources", "version-1", "ticket-41", "crlf-rows", "lone-cr"] {
        let image = sample(name);
        let bank = cache::load(&image).unwrap().unwrap();
        for (source, table) in (0..bank.count).flat_map(|s| (0..9).map(move |t| (s, t))) {
            let mut rows = bank.rows(&image, source, table);
            let (mut out, mut ends) = ([0; MAX_ROW], [0; MAX_COLUMNS]);
            let mut place = 0;
            loop {
                let read = bank.row(&image, source, table, place, &mut out, &mut ends);
                let names = place == 0;
                match read {
                    Ok(Some(row)) if names => place = row.next,
                    Ok(Some(row)) => {
                        let columns = &ends[..cache::column_count(table).unwrap()];
                        let next = rows.next().unwrap().unwrap();
                        assert!(next.values().eq(cache::values(&out, columns)));
                        assert_eq!(next.values().map(<[u8]>::len).sum::<usize>(), row.size);
                        place = row.next;
                    }
                    last => {
                        assert_eq!(rows.next().map(|row| row.map(|_| ())), {
                            last.map(|_| ()).err().map(Err)
                        });
                        assert_eq!(rows.offset(), place);
                        break;
                    }
                }
            }
            assert!(rows.next().is_none());
        }
    }
    let image = sample("two-good");
    let bank = cache::load(&image).unwrap().unwrap();
    assert_eq!(bank.rows(&image, 9, 0).next(), Some(Err(Refusal::Source)));
    assert_eq!(bank.rows(&image[1..], 0, 0).next(), Some(Err(Refusal::Region)));
    assert!(cache::values(b"abc", &[2, 9, 1]).eq([&b"ab"[..], b"", b""]));
}

/// Rows that end in CRLF, by both ways to ask; and a lone CR.
#[test]
fn a_row_ends_in_lf_or_crlf() {
    let image = sample("crlf-rows");
    let bank = cache::load(&image).unwrap().unwrap();
    let mut names = Vec::new();
    for row in bank.rows(&image, 0, table::STOPS) {
        names.push(row.unwrap().values().last().unwrap().to_vec());
    }
    assert_eq!(names[0], b"Central Station");
    assert_eq!(names[3..], [&b"Quay\rEast"[..], b"Pier\r\nWest, gate 2"]);

    let image = sample("lone-cr");
    let bank = cache::load(&image).unwrap().unwrap();
    let mut rows = bank.rows(&image, 0, table::STOPS);
    assert!(rows.next().unwrap().is_ok());
    assert_eq!(rows.next().map(|row| row.err()), Some(Some(Refusal::Row)));
    assert!(rows.next().is_none());

    let read = |bytes: &[u8]| {
        let (mut out, mut ends) = ([7; 8], [7; 2]);
        let row = cache::read_row(bytes, 2, 0, &mut out, &mut ends);
        (row.map(|row| row.map(|row| (row.next, row.size))), out, ends)
    };
    let lent = [7; 8];
    assert_eq!(read(b"a,b\r\nc"), (Ok(Some((5, 2))), *b"ab\x07\x07\x07\x07\x07\x07", [1, 2]));
    assert_eq!(read(b"a,\"\r\n\"\r\n").0, Ok(Some((8, 3))));
    for lone in [&b"a,b\r"[..], b"a,b\r\r\n", b"a\r,b\n", b"a,\"b\"\rx\n"] {
        assert_eq!(read(lone), (Err(Refusal::Row), lent, [7; 2]));
    }
}

/// The bytes of a header before its CRC, and the CRC and the commit word, which count as zeros.
const FRONT: usize = 40;
const ZEROS: [u8; 8] = [0; 8];

/// Four bytes whose CRC is 0.
const CRC_ZERO: [u8; 4] = [0x9d, 0x0a, 0xd9, 0x6d];

fn fed(start: u32, parts: &[&[u8]]) -> u32 {
    parts.iter().fold(start, |crc, part| crc32(crc, part))
}

/// In any three parts, empty ones too.
#[test]
fn a_crc_is_fed_part_after_part() {
    let text = b"123456789";
    assert_eq!(crc32(0, text), 0xcbf4_3926);
    for b in 0..=text.len() {
        for a in 0..=b {
            assert_eq!(fed(0, &[&text[..a], &text[a..b], &text[b..]]), 0xcbf4_3926);
        }
    }
    // Numbers that are the CRC of no first part of these bytes; the sums are zlib's.
    for (start, sum) in [(0x1234_5678, 0x01f4_807b), (u32::MAX, 0xd202_d277)] {
        assert_eq!(crc32(start, text), sum);
        assert_eq!(fed(start, &[b"", &text[..4], b"", &text[4..], b""]), sum);
    }
    for start in [0, 1, 1 << 31, 0x1234_5678, u32::MAX] {
        assert_eq!(crc32(start, b""), start);
    }
}

#[test]
fn a_crc_of_0_is_no_special_case() {
    assert_eq!(crc32(0, &CRC_ZERO), 0);
    let text = b"123456789";
    // Any bytes have four after which the CRC is 0.
    let to_zero = (crc32(0, text) ^ u32::from_le_bytes(CRC_ZERO)).to_le_bytes();
    assert_eq!(fed(0, &[text, &to_zero]), 0);
    for parts in [[&CRC_ZERO[..], b"", b"abc"], [text, &to_zero, b"abc"]] {
        assert_eq!(fed(0, &parts), crc32(0, &parts.concat()));
        assert_eq!(fed(0, &parts), crc32(0, b"abc"));
    }
}

/// A host that sums a header so needs no copy of it either; the sample's headers have that CRC.
#[test]
fn a_header_is_summed_in_three_parts() {
    let image = sample("two-good");
    for bank in image.chunks(BANK_SIZE) {
        let header = &bank[..HEADER_SIZE];
        let (front, records) = (&header[..FRONT], &header[FRONT + ZEROS.len()..]);
        assert_eq!(fed(0, &[front, &ZEROS, records]), get(header, FRONT));
    }
}

/// Texts joined by the binding and those passed joined: the same answers, at the
/// limits and past them.
#[test]
fn joined_texts_are_the_texts() {
    fn same_key(picks: &[[&[u8]; PICK_FIELDS]]) -> Result<usize, Refusal> {
        let texts: Vec<u8> = picks.iter().flatten().flat_map(|text| text.iter().copied()).collect();
        let lengths: Vec<u32> = picks.iter().flatten().map(|text| text.len() as u32).collect();
        let (mut one, mut other) = ([0; 4000], [0; 4000]);
        let key = cache::key(b"A", Picks { texts: &texts, lengths: &lengths }, &mut one);
        assert_eq!(cache::key(b"A", &JoinedPicks::new(picks), &mut other), key);
        assert!(one == other);
        key
    }
    let long = [b'x'; 300];
    let limits = [MAX_LINE, MAX_ROUTE, MAX_STOP_CODE, MAX_STOP, MAX_STOP_NAME];
    let longest = limits.map(|n| &long[..n]);
    let numbers: Vec<String> = (0..20).map(|n| n.to_string()).collect();
    let many: Vec<_> = numbers.iter().map(|n| [n.as_bytes(), b"", b"", b"stop", b"name"]).collect();
    assert!(same_key(&[]).is_ok() && same_key(&[longest]).is_ok() && same_key(&many[..16]).is_ok());
    assert_eq!(same_key(&many[..17]), Err(Refusal::Argument));
    assert_eq!(same_key(&many), Err(Refusal::Argument));
    for (field, limit) in limits.into_iter().enumerate() {
        for n in [limit + 1, 300] {
            let mut pick = longest;
            pick[field] = &long[..n];
            assert_eq!(same_key(&[pick]), Err(Refusal::Argument));
        }
    }

    fn same_row(table: u32, values: &[&str]) -> Result<usize, Refusal> {
        let texts = values.concat();
        let lengths: Vec<u32> = values.iter().map(|value| value.len() as u32).collect();
        let (mut one, mut other) = ([0; MAX_ROW], [0; MAX_ROW]);
        let row = Values { texts: texts.as_bytes(), lengths: &lengths };
        let row = cache::row(table, row, &mut one);
        assert_eq!(cache::row(table, &JoinedValues::new(values), &mut other), row);
        assert!(one == other);
        row
    }
    let text = "y".repeat(20_000);
    assert_eq!(same_row(table::ROUTES, &["a", "b,", "\""]), Ok(12));
    assert_eq!(same_row(table::FEED_INFO, &[&text[..MAX_ROW - 2], ""]), Ok(MAX_ROW));
    for n in [MAX_ROW - 1, MAX_ROW, MAX_ROW + 1, 20_000] {
        assert_eq!(same_row(table::FEED_INFO, &[&text[..n], ""]), Err(Refusal::Row));
        assert_eq!(same_row(table::FEED_INFO, &["", &text[..n]]), Err(Refusal::Row));
    }
    for n in (0..30).filter(|n| *n != 8) {
        assert_eq!(same_row(table::TRANSFERS, &vec!["v"; n]), Err(Refusal::Row));
    }
    assert_eq!(same_row(8, &[]), Err(Refusal::Argument));
}
