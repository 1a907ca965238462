use ghishmadul::{
    predicate_file_bytes, read_session, read_word, session_bytes, text_of, vector_file_bytes,
    write_session, Facts, Refusal,
};

fn main() -> Result<(), Refusal> {
    // A session of length 1 with two words, of a core with SVE: version 2, and a byte of facts.
    let (z, p) = (vec![0; vector_file_bytes(1)], vec![0; predicate_file_bytes(1)]);
    let program = [0x0400_2020u32.to_le_bytes(), 0x2E30_3822u32.to_le_bytes()].concat();
    let mut bytes = vec![0; session_bytes(1, 2)];
    let written = write_session(&mut bytes, 1, Facts::SVE, &z, &p, &program);
    assert_eq!(written, Ok(bytes.len()));
    assert_eq!(bytes[..9], *b"LNW\x02\x00\x01\x02\x00\x01");

    let session = read_session(&bytes)?;
    println!("length {}, {} words from byte {}", session.k, session.count, session.program);
    assert_eq!((session.k, session.count, session.facts), (1, 2, Facts::SVE));
    assert_eq!((session.vectors, session.predicates, session.program), (9, 521, 553));

    // Its words, one by one.
    let program = &bytes[session.program..];
    let first = read_word(program, 0)?;
    let second = read_word(program, first.at)?;
    let texts = [text_of(first.word, session.facts)?, text_of(second.word, session.facts)?];
    println!("{}\n{}", texts[0], texts[1]);
    assert_eq!((first.word, second.word), (0x0400_2020, 0x2E30_3822));
    assert_eq!(read_word(program, second.at), Err(Refusal::End));

    // The former version has no facts, and means all of them.
    let mut former = bytes.clone();
    former[3] = 1;
    former.remove(8);
    let session = read_session(&former)?;
    println!("without facts: {:?}, words from byte {}", session.facts, session.program);
    assert_eq!((session.facts, session.program), (Facts::ALL, 552));

    bytes.push(0);
    println!("with a byte more: {:?}", read_session(&bytes));
    assert_eq!(read_session(&bytes), Err(Refusal::Session));
    Ok(())
}
