//! The crate's numbers, names and sentences are the header's, so are the reference's rows with what they are and
//! what they need, and so is a line: `header.c` prints the same.

use ghishmadul::*;

/// The sizes of the machine and of what is lent.
fn sizes() -> impl Iterator<Item = (&'static str, usize)> {
    let ends = [("LEAST_K", LEAST_K), ("MOST_K", MOST_K)];
    let lengths = LENGTHS.iter().map(|&k| ("LENGTHS", k));
    let accepted =
        (0..=MOST_K + 1).filter(|&k| fresh(k, JournalVersion::Current, &mut [0; 8]).is_ok());
    let lengths = lengths.chain(accepted.map(|k| ("fresh", k)));
    let sizes = [
        ("VECTOR_REGISTERS", VECTOR_REGISTERS),
        ("PREDICATE_REGISTERS", PREDICATE_REGISTERS),
        ("MOST_WORDS", MOST_WORDS),
        ("JOURNAL_HEADER_BYTES", JOURNAL_HEADER_BYTES),
        ("MOST_JOURNAL_BYTES", MOST_JOURNAL_BYTES),
        ("LEAST_TEXT_OUT", LEAST_TEXT_OUT),
        ("LONGEST_LINE", LONGEST_LINE),
        ("PANEL_BYTES", PANEL_BYTES),
        ("STEP_STACK", STEP_STACK),
        ("VECTOR_BYTES(4)", vector_bytes(4)),
        ("PREDICATE_BYTES(4)", predicate_bytes(4)),
        ("VECTOR_FILE_BYTES(4)", vector_file_bytes(4)),
        ("PREDICATE_FILE_BYTES(4)", predicate_file_bytes(4)),
        ("JOURNAL_BYTES(4, 5)", journal_bytes(4, 5)),
        ("SESSION_BYTES(4, 5)", session_bytes(4, 5)),
        ("LANES(4, 3)", lane_count(4, Size::D)),
        ("LANE_BYTES(3)", Size::D.bytes()),
        ("LANE_BIT(5, 2)", 5 * Size::S.bytes()),
    ];
    let of_bytes = (0..10).map(|bytes| {
        let size = Size::ALL.into_iter().position(|size| size.bytes() == bytes);
        ("size of bytes", size.unwrap_or(Size::ALL.len()))
    });
    ends.into_iter().chain(lengths).chain(sizes).chain(of_bytes)
}

#[test]
fn the_header_has_the_same_numbers() {
    let said = |(name, value)| format!("{} {}\n", name, value);
    let versions = [("VERSION", VERSION as usize), ("version", version() as usize)];
    let sizes = sizes().chain(versions).map(said);
    let after_the_last = Refusal::ALL.len() as u64 + 1;
    let refusals = Refusal::ALL.iter().copied().chain([Refusal::Unlisted(after_the_last)]);
    let names = refusals.map(|refusal| format!("{} {}\n", refusal.name(), refusal.number()));
    let rows = Row::ALL.iter().map(|row| (row.name(), row.number()));
    let rows = rows.map(|(name, number)| format!("{} {}\n", name.to_uppercase(), number));
    let needs = (0..reference::TABLE.len()).map(sets_of_a_row);
    let line = [line_of_the_greatest_number()];
    let lines: String = sizes
        .chain(names)
        .chain(sentences())
        .chain(rows)
        .chain(what_rows_are())
        .chain(journals_and_patterns())
        .chain(shapes().into_iter().map(said))
        .chain(facts().into_iter().map(said))
        .chain(needs)
        .chain(line)
        .collect();
    assert_eq!(lines, include_str!("header.expected"));
}

/// A sentence for each answer number, and for one that is none.
fn sentences() -> impl Iterator<Item = String> {
    let past = Refusal::ALL.len() as u64 + 1;
    let refusals = (1..=past).filter_map(|number| Refusal::check(number).err());
    let said = refusals.map(|refusal| format!("{}: {}\n", refusal.number(), refusal.sentence()));
    std::iter::once("0: the call is done\n".to_string()).chain(said)
}

/// Each row by its name with what the reference tells of it, and the one past the last.
fn what_rows_are() -> impl Iterator<Item = String> {
    let lines = Row::ALL.iter().map(|row| {
        let told = reference::read_row(row.number()).expect("a row");
        let flags = [told.signed, told.has_g, told.has_m, told.has_q, told.reads_destination];
        let flags = flags.map(usize::from).to_vec();
        let widths = [told.n_bytes, told.m_bytes, told.d_bytes].concat();
        let last = [told.has_n, told.has_pattern, told.writes_predicate].map(usize::from);
        let numbers = [&[0][..], &flags[..], &[told.need.into()], &widths, &last].concat();
        format!("{}{}\n", row, numbers.iter().map(|n| format!(" {}", n)).collect::<String>())
    });
    let past = format!("no row {}{}\n", Refusal::Range.number(), " 0".repeat(21));
    lines.chain([past, "no row\n".to_string()])
}

/// The versions of a journal, which of some numbers are one, the registers of entries, and the patterns.
fn journals_and_patterns() -> Vec<String> {
    let versions = [JournalVersion::Current, JournalVersion::Former].map(JournalVersion::number);
    let [current, former] = versions;
    let mut lines = vec![
        format!("JOURNAL_VERSION {}\n", current),
        format!("FORMER_JOURNAL_VERSION {}\n", former),
    ];
    for told in [0, 1, 2, 3, (1 << 16) + 1, (1 << 32) + 2, u64::MAX] {
        let answer = reference::fresh(1, told, &mut [0; 8]);
        lines.push(format!("fresh of {}: {}\n", told, answer.err().map_or(0, Refusal::number)));
    }
    for target in [0, 31, 32, 47] {
        let (kind, number) = if target < 32 { (0, target) } else { (1, target - 32) };
        lines.push(format!("target {}: {} {}\n", target, kind, number));
    }
    for pattern in Pattern::EVERY {
        lines.push(format!("{} {}\n", pattern.name(), pattern.number()));
    }
    lines.push("no pattern 32\n".to_string());
    let named = Pattern::EVERY.into_iter().filter(|pattern| !pattern.name().starts_with('#'));
    lines
        .extend(named.map(|named| format!("{} {}\n", named.name().to_uppercase(), named.number())));
    lines
}

/// How many bytes the answers have, and where some of their members stand.
fn shapes() -> [(&'static str, usize); 12] {
    let (fields, lane, entry, row) = unsafe {
        (
            boundary::ln_decode(0, 0),
            boundary::ln_read_lane(0, [].as_ptr(), 0, [].as_ptr(), 0, 0, 0, 0, 0, 0),
            boundary::ln_read_entry(0, [].as_ptr(), 0, 0),
            boundary::ln_read_row(0),
        )
    };
    let place = |of: *const u64, whole: usize| of as usize - whole;
    let in_fields = |of| place(of, &fields as *const boundary::Fields as usize);
    let in_lane = |of| place(of, &lane as *const boundary::Lane as usize);
    let in_entry = |of| place(of, &entry as *const boundary::Entry as usize);
    let in_row = |of| place(of, &row as *const boundary::About as usize);
    [
        ("bytes of a word's fields", std::mem::size_of::<boundary::Fields>()),
        ("its pattern at", in_fields(&fields.pattern)),
        ("bytes of a lane's answer", std::mem::size_of::<boundary::Lane>()),
        ("its value at", in_lane(&lane.value)),
        ("its bit at", in_lane(&lane.bit)),
        ("bytes of an entry's answer", std::mem::size_of::<boundary::Entry>()),
        ("its target at", in_entry(&entry.target)),
        ("its bytes at", in_entry(&entry.bytes)),
        ("bytes of a row's answer", std::mem::size_of::<boundary::About>()),
        ("its need at", in_row(&row.need)),
        ("its d_bytes at", in_row(&row.d_bytes[0])),
        ("its writes_predicate at", in_row(&row.writes_predicate)),
    ]
}

/// The facts, and where a session's are told.
fn facts() -> [(&'static str, usize); 12] {
    let none = Facts::NONE;
    let byte = |facts: Facts| usize::from(facts.byte());
    let answer = unsafe { boundary::ln_read_session([].as_ptr(), 0) };
    let place = |start: *const u64| start as usize - &answer as *const boundary::Session as usize;
    [
        ("SVE", byte(Facts { sve: true, ..none })),
        ("SVE2", byte(Facts { sve2: true, ..none })),
        ("SVE2P1", byte(Facts { sve2p1: true, ..none })),
        ("SME", byte(Facts { sme: true, ..none })),
        ("SME2P1", byte(Facts { sme2p1: true, ..none })),
        ("ALL_FACTS", byte(Facts::ALL)),
        ("SESSION_VERSION", SESSION_VERSION),
        ("FORMER_SESSION_VERSION", FORMER_SESSION_VERSION),
        ("SESSION_HEADER_BYTES", SESSION_HEADER_BYTES),
        ("FORMER_SESSION_HEADER_BYTES", FORMER_SESSION_HEADER_BYTES),
        ("bytes of a session's answer", std::mem::size_of::<boundary::Session>()),
        ("its facts at", place(&answer.facts)),
    ]
}

/// The sets of facts that accept a word of this row, at size 1 if the row has a size, and with registers 0: by the
/// engine, and by the reference too.
fn sets_of_a_row(row: usize) -> String {
    let of = reference::TABLE[row];
    let word = of.value | 1 << 22 & !of.mask;
    let sets = (0..32).filter(|&byte| {
        let facts = Facts::from_byte(byte);
        let fields = decode(word, facts);
        let number = fields.map(|fields| fields.row.number());
        assert_eq!(number, reference::decode(word, facts).map(|fields| fields.row));
        assert_eq!(number.is_ok(), Row::ALL[row].about().is_met_by(facts));
        number == Ok(row)
    });
    format!("row {} under{}\n", row, sets.map(|byte| format!(" {}", byte)).collect::<String>())
}

#[test]
fn a_byte_has_its_facts() {
    for byte in 0..=255 {
        assert_eq!(Facts::from_byte(byte), reference::facts_of(byte));
        assert_eq!(Facts::from_byte(byte).byte(), byte & 31);
    }
    let cores = [Facts::NONE, Facts::SVE, Facts::SVE2, Facts::SVE2P1, Facts::SME_ONLY];
    assert_eq!(cores.map(Facts::byte), [0, 1, 3, 7, 8]);
    assert_eq!([Facts::SME2P1, Facts::ALL, Facts::default()].map(Facts::byte), [24, 31, 0]);
}

/// The line of a step at k = 1 over a word of zeros, with the greatest answer number.
fn line_of_the_greatest_number() -> String {
    let z = vec![0; vector_file_bytes(1)];
    let p = vec![0; predicate_file_bytes(1)];
    let mut out = [0; LONGEST_LINE];
    let answer = Err(Refusal::Unlisted(u64::MAX));
    let length = write_line(&mut out, 1, Facts::NONE, &z, &p, &[0; 4], 0, answer).unwrap();
    String::from_utf8_lossy(&out[..length]).into_owned()
}
