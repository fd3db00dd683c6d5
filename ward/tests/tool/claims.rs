//! Answer records from whoever wrote them: what the checker does not accept is told as the record's claim alone.

use crate::scratch::Scratch;
use crate::{told, tool, Told, E};

/// The engine's answer records to a text.
fn answers(text: &str) -> Vec<Vec<u8>> {
    let sheet = ward_reader::read(text.as_bytes(), &ward_reader::Clock::unjudged()).sheet.expect("a good text");
    let mut buffer = [0; span::QUESTIONS * span::ANSWER_SIZE];
    let solved = span::solve_all(&ward_reader::record::sent(&sheet)[0], &mut buffer).expect("answers");
    solved.answers.into_iter().map(|answer| buffer[answer.bytes].to_vec()).collect()
}

fn judge(text: &str, records: &[&[u8]]) -> Told {
    let scratch = Scratch::new("judge");
    let (file, records) = (scratch.file("day.txt", text), scratch.file("answers", records.concat()));
    told(tool().arg("judge").arg(file).arg(records))
}

/// A record with other bytes from a place on.
fn with(record: &[u8], place: usize, bytes: &[u8]) -> Vec<u8> {
    let mut record = record.to_vec();
    record[place..place + bytes.len()].copy_from_slice(bytes);
    record
}

/// A record whose span, which stands at place 10, is another.
fn with_span(record: &[u8], span: i32) -> Vec<u8> {
    with(record, 10, &span.to_le_bytes())
}

/// A record whose start, which stands behind the span (document 02, 2.4), is another.
fn with_start(record: &[u8], start: u16) -> Vec<u8> {
    with(record, 14, &start.to_le_bytes())
}

#[test]
fn an_accepted_answer_is_told() {
    let records = answers(E);
    let told = judge(E, &[&records[0]]);
    assert_eq!((told.status, told.err.as_str()), (Some(0), ""), "{told:?}");
    assert!(
        told.out.contains("says: accepted least 30\n") && told.out.contains("The least span is 30 minutes."),
        "{told:?}"
    );
}

/// As `--json` gives an answer.
#[test]
fn answers_may_be_in_hexadecimal() {
    let text = format!("{E}span: from bed to anchor\n");
    let records = answers(&text).iter().map(|record| ward_reader::record::hex(record) + "\n").collect::<String>();
    let told = judge(&text, &[records.as_bytes()]);
    assert_eq!((told.status, told.err.as_str()), (Some(0), ""), "{told:?}");
    assert!(
        told.out.contains("says: accepted least 30\n") && told.out.contains("says: accepted bottomless"),
        "{told:?}"
    );
}

/// Nothing is told as a fact of an answer that is not accepted.
#[test]
fn what_is_not_accepted_is_a_claim() {
    let good = &answers(E)[0];
    for (record, verdict, claim) in [
        (
            with_span(good, 29),
            "not certified",
            "The record claims a least span of 29 minutes. Nothing shows that this is so.",
        ),
        (with_span(good, i32::MIN), "refused 12", "claims nothing"),
        (with(good, 4, &[2, 0]), "refused 10", "claims nothing"),
        (with_start(good, 2), "refused 10", "claims nothing"),
        (good[..15].to_vec(), "refused 8", "claims nothing"),
        (good[..16].to_vec(), "refused 9", "claims nothing"),
        (good[..good.len() - 1].to_vec(), "refused 9", "claims nothing"),
        ([good, &[0][..]].concat(), "refused 9", "claims nothing"),
        (Vec::new(), "refused 8", "claims nothing"),
    ] {
        let told = judge(E, &[&record]);
        told_as(&told, verdict, claim);
        for words in ["The least span is", "No plan", "Bottomless:", "None:", "rule 1"] {
            assert!(!told.out.contains(words), "{words}: {told:?}");
        }
    }
}

/// Where reach begins is part of what is judged. In document 01's example J the anchor is in no row.
#[test]
fn an_answer_stands_with_its_start() {
    let text = "moments: one, two\ntwo - 10 <= one\nspan: from two to one\n";
    let least = &answers(text)[0];
    assert_eq!((least[4], least[14]), (4, 1));
    assert_eq!(judge(text, &[least]).status, Some(0));
    let claim = "The record claims a least span of -10 minutes. Nothing shows that this is so.";
    told_as(&judge(text, &[&with_start(least, 0)]), "not certified", claim);

    let text = "moments: one, two\nanchor + 5 <= one\nspan: from two to one\n";
    let bottomless = &answers(text)[0];
    assert_eq!((bottomless[8], bottomless[14]), (2, 3));
    assert_eq!(judge(text, &[bottomless]).status, Some(0));
    let claim = "The record claims that spans are bottomless. Nothing shows that this is so.";
    for (start, verdict, claim) in [
        (0, "refused 10", "claims nothing"),
        (1, "not certified", claim),
        (2, "not certified", claim),
        (4, "refused 10", "claims nothing"),
    ] {
        told_as(&judge(text, &[&with_start(bottomless, start)]), verdict, claim);
    }
}

fn told_as(told: &Told, verdict: &str, claim: &str) {
    assert_eq!(told.status, Some(3), "{told:?}");
    assert!(told.out.contains(&format!("does not accept the answer: {verdict}\n")), "{told:?}");
    assert!(told.out.contains(claim), "{told:?}");
}

/// Of several answers the worst makes the status, and each is judged with its own span.
#[test]
fn each_answer_is_judged_with_its_span() {
    let text = format!("{E}expect: least 30\nspan: from bed to anchor\nexpect: bottomless\n");
    let records = answers(&text);
    assert_eq!(judge(&text, &[&records[0], &records[1]]).status, Some(0));
    assert_eq!(judge(&text.replace("least 30", "least 29"), &[&records[0], &records[1]]).status, Some(4));
    let small = with_span(&records[0], 29);
    for (answers, words) in [
        ([&small[..], &records[1]], "not accept the answer: not certified"),
        ([&records[0][..], &[]], "not accept the answer: refused 8"),
        ([&records[1][..], &records[0]], "not accept the answer: not certified"),
    ] {
        let told = judge(&text.replace("least 30", "least 29"), &answers);
        assert_eq!(told.status, Some(3), "{told:?}");
        assert!(told.out.contains(words), "{told:?}");
    }
}
