//! The ledger.
use crate::forms;
use std::net::IpAddr;
use troutgable::*;

fn flow(source_id: u32, sequence_number: u32, sample_pool: u32) -> FlowWords {
    FlowWords {
        sequence_number,
        source_id: SourceId(source_id),
        sample_pool,
        ..FlowWords::default()
    }
}

#[test]
fn rows() {
    let v6 = IpAddr::V6(forms::ipv6([601, 602, 603, 604]));
    let v4 = "10.0.0.7".parse().unwrap();
    let mut ledger = Ledger::new();
    assert_eq!(ledger.rows().count(), 0);
    assert_eq!(ledger.enter(v6, &flow(605, 7, 4294967290)), Ok(()));
    assert_eq!(ledger.enter(v4, &flow(606, 8, 9)), Ok(()));
    assert_eq!(ledger.enter(v6, &flow(605, 9, 10)), Ok(()));
    let before = ledger.clone();
    assert_eq!(
        ledger.enter(v6, &flow(605, 9, 11)),
        Err(EntryRefusal::Repeated)
    );
    assert_eq!(
        ledger.enter(v6, &flow(605, 8, 12)),
        Err(EntryRefusal::Backward)
    );
    assert_eq!(ledger, before);
    let row = |agent, source_id, sequence_number, sample_pool, lost_total, pool_total| Row {
        agent,
        source_id: SourceId(source_id),
        sequence_number,
        sample_pool,
        lost_total,
        pool_total,
    };
    assert_eq!(
        ledger.rows().collect::<Vec<_>>(),
        [row(v6, 605, 9, 10, 1, 16), row(v4, 606, 8, 9, 0, 0)]
    );
    assert_eq!(
        ledger.table()[..11],
        [1, 2, 601, 602, 603, 604, 605, 9, 10, 1, 16]
    );
    assert_eq!(Ledger::from_table(*ledger.table()), ledger);
}

#[test]
fn full() {
    let agent = "10.0.0.7".parse().unwrap();
    let mut ledger = Ledger::default();
    for source in 0..64 {
        assert_eq!(ledger.enter(agent, &flow(source, 5, 6)), Ok(()));
    }
    let refusal = ledger.enter(agent, &flow(64, 5, 6)).unwrap_err();
    assert_eq!((refusal, refusal.number()), (EntryRefusal::TableFull, 40));
    assert_eq!(
        refusal.to_string(),
        "refused 40: all 64 rows belong to other sources"
    );
    assert_eq!(ledger.enter(agent, &flow(63, 15, 26)), Ok(()));
    assert_eq!(
        ledger
            .rows()
            .last()
            .map(|row| (row.lost_total, row.pool_total)),
        Some((9, 20))
    );
}
