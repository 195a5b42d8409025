//! The ledger's vectors as a whole.

use std::collections::BTreeMap;

use conformance::ledger::{Row, Source, Table};
use conformance::ledger_cases::{situation_records, situations};
use conformance::ledger_records::*;
use conformance::ledger_runs::BLOCK_SAMPLES;
use conformance::ledger_vectors::{ledger_file, ledger_records};
use conformance::vectors::SEED;

/// The answers in a text of answers and rows.
fn answers_in(text: &str) -> Vec<u32> {
    let numbers = text.lines().filter_map(|line| line.strip_prefix("answer "));
    numbers.map(|number| number.parse().unwrap()).collect()
}

#[test]
fn situations_give_what_they_state() {
    for situation in situations() {
        let text = ledger_answers(&octets_of_records(&situation.records));
        assert_eq!(answers_in(&text), situation.stated, "{}", situation.words);
    }
}

#[test]
fn the_situations_come_first() {
    let first = situation_records();
    assert!(ledger_records(SEED).starts_with(&first));
    let emptied = first.iter().filter(|record| record[0] == EMPTY).count();
    assert_eq!(emptied, situations().len());
}

#[test]
fn a_seed_gives_the_same_records() {
    assert_eq!(ledger_records(SEED), ledger_records(SEED));
    assert_ne!(ledger_records(SEED), ledger_records(SEED + 1));
}

#[test]
fn the_files_have_their_size() {
    let records = ledger_records(SEED);
    assert!(records.len() >= 3000);
    assert!(ledger_answers(&ledger_file(&records)).len() < 3_000_000);
}

#[test]
fn a_cut_record_is_not_looked_at() {
    let records = ledger_records(SEED);
    let file = ledger_file(&records);
    assert_eq!(file.len() % RECORD_OCTETS, RECORD_OCTETS - 1);
    assert_eq!(records_of(&file), records);
    let whole = octets_of_records(&records);
    assert_eq!(ledger_answers(&file), ledger_answers(&whole));
}

#[test]
fn records_and_rows_have_the_format() {
    let row = Row {
        used: true,
        source: Source {
            address_type: 2,
            address: [0, 0, 0, 1, 0, 0, 1, 0, 0, 1, 0, 0, 1, 0, 0, 0],
            id: 6,
        },
        sequence: 7,
        pool: 8,
        lost_total: (9 << 32) + 10,
        pool_total: (11 << 32) + 12,
    };
    let record = set_record(63, &row);
    let (b, c, d) = (256, 65536, 16777216);
    assert_eq!(record, [1, 63, 2, 1, b, c, d, 6, 7, 8, 1, 9, 10, 11, 12, 0]);
    assert_eq!(row_of(&record), row);
    let text = ledger_answers(&octets_of_records(&[record, show_record()]));
    let line = text.lines().nth(63);
    let stated = "row 63 1 2 1 256 65536 16777216 6 7 8 38654705674 47244640268";
    assert_eq!(line, Some(stated));
    assert!(text.ends_with('\n') && text.starts_with("row 0 0 0 0 0 0 0 0 0 0 0 0\n"));
}

#[test]
fn every_change_is_shown_before_a_row_is_set() {
    let first = situation_records().len();
    let mut unseen = 0;
    for record in &ledger_records(SEED)[first..] {
        match record[0] {
            ENTER | LEND => unseen += 1,
            SHOW => unseen = 0,
            _ => assert_eq!(unseen, 0),
        }
        assert!(unseen <= BLOCK_SAMPLES);
    }
    assert_eq!(unseen, 0);
}

/// How a sample stands to the table when it comes.
fn form(table: &Table, record: &Record) -> String {
    let sample = sample_of(record);
    let own = |row: &&Row| row.belongs_to(&sample.source);
    let count = table.rows.iter().filter(own).count().min(2);
    if record[0] == ENTER {
        let lowest = table.rows.iter().position(|row| own(&row));
        let free = table.rows.iter().position(|row| !row.used);
        let below = free.is_some() && free < lowest;
        return format!("enter, {count} rows, free below {below}");
    }
    let lent = &table.rows[record[1] as usize];
    let kind = match (lent.used, own(&lent)) {
        (false, _) => "free",
        (true, own) => ["another's", "own"][usize::from(own)],
    };
    format!("lend {kind}, {count} rows")
}

/// The forms of the random samples with their answers, and how often each is.
fn forms() -> BTreeMap<String, usize> {
    let mut table = Table::default();
    let mut forms = BTreeMap::new();
    let first = situation_records().len();
    for record in &ledger_records(SEED)[first..] {
        if let ENTER | LEND = record[0] {
            let form = form(&table, record);
            let answer = carry_out(&mut table, record);
            *forms.entry(form + ": " + answer.trim_end()).or_insert(0) += 1;
        } else {
            carry_out(&mut table, record);
        }
    }
    forms
}

#[test]
fn the_runs_have_every_form_with_every_answer() {
    let forms = forms();
    let mut stated = vec![
        "enter, 0 rows, free below false: answer 0".to_string(),
        "enter, 0 rows, free below false: answer 40".to_string(),
    ];
    for count in 0..3 {
        stated.push(format!("lend free, {count} rows: answer 0"));
        stated.push(format!("lend another's, {count} rows: answer 43"));
    }
    for (count, answer) in [1, 2].into_iter().flat_map(|n| [0, 41, 42].map(|a| (n, a))) {
        stated.push(format!("lend own, {count} rows: answer {answer}"));
        for below in [false, true] {
            stated.push(format!(
                "enter, {count} rows, free below {below}: answer {answer}"
            ));
        }
    }
    stated.sort();
    assert_eq!(forms.keys().cloned().collect::<Vec<_>>(), stated);
    assert!(forms.values().all(|&often| often >= 5), "{forms:#?}");
}
