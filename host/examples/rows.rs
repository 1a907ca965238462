use ghishmadul::{decode, Facts, Refusal, Row, Size};

fn main() -> Result<(), Refusal> {
    // Every row: its name, what it needs, and its lanes at a size of four bytes.
    for row in Row::ALL {
        let about = row.about();
        let widths = about.widths(Size::S);
        println!("{}: one of {}; {:?}", row, about.need, widths);
    }
    assert_eq!(Row::try_from(24), Ok(Row::Pfalse));
    assert_eq!(Row::try_from(25), Err(Refusal::Range));

    // sadalp z0.h, p1/m, z2.b: it reads bytes and writes lanes of two bytes, which its predicate governs.
    let fields = decode(0x4444_A440, Facts::SVE2)?;
    let about = fields.row.about();
    assert_eq!((fields.row.name(), fields.row.number()), ("sadalp", 5));
    assert!(about.signed && about.has_g && about.reads_destination);
    assert!(!about.has_m && !about.has_q);
    let widths = about.widths(fields.size).expect("a size that the row allows");
    assert_eq!((widths.n, widths.m, widths.d), (Some(Size::B), None, Size::H));
    assert_eq!(about.widths(Size::B), None);

    // It needs SVE2 or SME, and one of them is enough.
    assert_eq!(about.need.to_string(), "sve2 sme");
    assert!(about.is_met_by(Facts::SME_ONLY) && !about.is_met_by(Facts::SVE));

    // ptrue reads no vector: it has a pattern, and writes a predicate register.
    let about = Row::Ptrue.about();
    assert!(about.has_pattern && about.writes_predicate && !about.has_n && !about.has_g);
    let widths = about.widths(Size::H).expect("a size that the row allows");
    assert_eq!((widths.n, widths.m, widths.d), (None, None, Size::H));
    Ok(())
}
