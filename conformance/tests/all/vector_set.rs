//! The set of vectors as a whole.

use std::collections::BTreeSet;

use conformance::cases::cases;
use conformance::dump::answer;
use conformance::edges::{of_length, LONGEST_ACCEPTED};
use conformance::random::Random;
use conformance::reader::read;
use conformance::value::{AsPath, ExtendedData, PacketData, Sample};
use conformance::vectors::{answers, framed, unframed, vectors, Part, SEED};

#[test]
fn the_set_begins_with_the_cases() {
    let set = vectors(SEED);
    let (first, rest) = set.split_at(cases().len());
    for (vector, case) in first.iter().zip(cases()) {
        assert_eq!((vector.part, &vector.octets), (Part::Case, &case.octets));
    }
    assert!(rest.iter().all(|vector| vector.part != Part::Case));
}

#[test]
fn no_octets_come_twice_behind_the_cases() {
    let set = vectors(SEED);
    let behind = set.iter().skip(cases().len());
    let different: BTreeSet<&[u8]> = behind.clone().map(|vector| &vector.octets[..]).collect();
    assert_eq!(different.len(), behind.count());
}

#[test]
fn valid_vectors_are_accepted() {
    let set = vectors(SEED);
    let valid = set.iter().filter(|vector| vector.part == Part::Valid);
    assert!(valid.clone().count() > 200);
    for vector in valid {
        assert!(read(&vector.octets).is_ok());
    }
}

/// The forms a sample has, as text.
fn forms(sample: &Sample) -> Vec<String> {
    let flow = match sample {
        Sample::Flow(flow) => flow,
        Sample::Counters(counters) => {
            return vec![format!("counters {}", counters.version.number())]
        }
    };
    let packet = match &flow.packet_data {
        PacketData::Header(header) => {
            format!("header {} {}", header.protocol, header.header.len() % 4)
        }
        PacketData::Ipv4(_) => "ipv4".into(),
        PacketData::Ipv6(_) => "ipv6".into(),
    };
    let extended = flow.extended_data.iter().flat_map(extended_forms);
    [packet].into_iter().chain(extended).collect()
}

/// The forms of an extended entry, as text.
fn extended_forms(entry: &ExtendedData) -> Vec<String> {
    match entry {
        ExtendedData::Switch(_) => vec!["switch".into()],
        ExtendedData::Router(router) => vec![format!("router {}", router.nexthop.type_number())],
        ExtendedData::Gateway(gateway) => {
            let segment = |path: &AsPath| format!("segment {}", path.type_number());
            gateway.dst_as_path.iter().map(segment).collect()
        }
        ExtendedData::User(user) => {
            let (src, dst) = (user.src_user.len() % 4, user.dst_user.len() % 4);
            vec![format!("src_user {src}"), format!("dst_user {dst}")]
        }
        ExtendedData::Url(url) => {
            vec![format!(
                "url {} {}",
                url.direction.number(),
                url.url.len() % 4
            )]
        }
    }
}

#[test]
fn valid_vectors_have_every_form() {
    let mut found = BTreeSet::new();
    for vector in vectors(SEED) {
        if vector.part == Part::Valid {
            let reading = read(&vector.octets).expect("accepted");
            found.insert(format!(
                "agent {}",
                reading.datagram.agent_address.type_number()
            ));
            found.extend(reading.datagram.samples.iter().flat_map(forms));
        }
    }
    // 2 address types, 7 counters versions, 13 header protocols with 4
    // amounts of padding, 2 forms of IP data, a switch, 2 routers, 2 segment
    // types, users with 4 amounts in each string, URLs with 4 each way.
    assert_eq!(found.len(), 2 + 7 + 13 * 4 + 2 + 1 + 2 + 2 + 2 * 4 + 2 * 4);
}

#[test]
fn the_set_depends_on_the_seed_alone() {
    assert_eq!(vectors(SEED), vectors(SEED));
    assert_ne!(vectors(SEED), vectors(SEED + 1));
    assert_eq!(answers(&vectors(SEED)), answers(&vectors(SEED)));
}

#[test]
fn every_refusal_number_comes_many_times() {
    let mut counts = [0; 15];
    for vector in vectors(SEED) {
        let number = read(&vector.octets).map_or_else(|refusal| refusal.number(), |_| 0);
        counts[number as usize] += 1;
    }
    for (number, count) in counts.into_iter().enumerate() {
        // 14 takes 65,508 octets, so the set has it once.
        let least = if number == 14 { 1 } else { 10 };
        assert!(count >= least, "{number}: {count}");
    }
}

#[test]
fn the_set_is_of_moderate_size() {
    let set = vectors(SEED);
    assert!((600..=4000).contains(&set.len()), "{}", set.len());
    assert!(framed(&set).len() <= 1_200_000);
    let long = set.iter().filter(|vector| vector.octets.len() > 10_000);
    assert!(long.count() <= 4);
}

#[test]
fn framing_can_be_undone() {
    let set = vectors(SEED);
    let file = framed(&set);
    let strings = unframed(&file).expect("whole");
    assert!(strings
        .into_iter()
        .eq(set.iter().map(|vector| &vector.octets[..])));
    assert_eq!(unframed(&file[..file.len() - 1]), None);
}

#[test]
fn longest_datagrams() {
    let mut random = Random::new(SEED);
    let mut octets = of_length(&mut random, LONGEST_ACCEPTED);
    assert_eq!(octets.len(), 65_504);
    assert!(read(&octets).is_ok());
    for length in 65_505..=65_507 {
        octets.resize(length, 0);
        assert_eq!(answer(&octets), "refused 13 at 65504\n");
    }
    octets.push(0);
    assert_eq!(answer(&octets), "refused 14 at 0\n");
    let longer = of_length(&mut random, 65_508);
    assert_eq!(
        (longer.len(), answer(&longer)),
        (65_508, "refused 14 at 0\n".into())
    );
}
