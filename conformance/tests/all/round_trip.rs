//! The encoder and the reader against each other over seeded datagrams.

use conformance::cases::octets_of;
use conformance::cursor::Span;
use conformance::encoder::{encode, Encoding, ItemKind};
use conformance::generator::valid_datagrams;
use conformance::parts::mixed;
use conformance::random::Random;
use conformance::reader::{read, Reading};
use conformance::refusal::{Fault, Refusal};
use conformance::value::Datagram;

/// Every form of the generator and more random mixtures.
fn datagrams() -> Vec<Datagram> {
    let mut random = Random::new(1);
    let mut datagrams = valid_datagrams(&mut random);
    datagrams.extend((0..200).map(|_| mixed(&mut random)));
    datagrams
}

/// The places that the encoder's items say a reading must have.
fn expected_places(encoding: &Encoding) -> Vec<(Span, Vec<Span>)> {
    let mut places: Vec<(Span, Vec<Span>)> = Vec::new();
    for item in &encoding.items {
        if item.kind == ItemKind::SampleType {
            places.push((
                Span {
                    offset: item.offset,
                    length: 0,
                },
                Vec::new(),
            ));
        }
        let Some((sample, strings)) = places.last_mut() else {
            continue;
        };
        sample.length += item.length;
        if item.kind == ItemKind::StringOctets {
            strings.push(Span {
                offset: item.offset,
                length: item.length - item.padding,
            });
        }
    }
    places
}

fn places(reading: &Reading) -> Vec<(Span, Vec<Span>)> {
    let pair = |place: &conformance::reader::SamplePlaces| (place.sample, place.strings.clone());
    reading.places.iter().map(pair).collect()
}

#[test]
fn encoded_datagrams_are_read_back() {
    for datagram in datagrams() {
        let encoding = encode(&datagram);
        let reading = read(&encoding.octets).expect("accepted");
        assert_eq!(reading.datagram, datagram);
        assert_eq!(places(&reading), expected_places(&encoding));
    }
}

#[test]
fn a_cut_names_the_item_it_falls_in() {
    for datagram in datagrams() {
        let Encoding { octets, items } = encode(&datagram);
        for item in &items {
            for length in item.offset..item.offset + item.length {
                let expected = Refusal::new(Fault::Missing, item.offset);
                assert_eq!(read(&octets[..length]), Err(expected));
            }
        }
    }
}

/// The refusal for a bad value in a tested word.
fn fault(kind: ItemKind) -> Option<Fault> {
    Some(match kind {
        ItemKind::Version => Fault::Version,
        ItemKind::AddressType => Fault::AddressType,
        ItemKind::SampleType => Fault::SampleType,
        ItemKind::PacketDataType => Fault::PacketDataType,
        ItemKind::HeaderProtocol => Fault::HeaderProtocol,
        ItemKind::HeaderLength => Fault::HeaderLength,
        ItemKind::ExtendedType => Fault::ExtendedType,
        ItemKind::SegmentType => Fault::SegmentType,
        ItemKind::UrlDirection => Fault::UrlDirection,
        ItemKind::CountersVersion => Fault::CountersVersion,
        _ => return None,
    })
}

#[test]
fn a_bad_word_is_named_at_its_place() {
    for datagram in datagrams() {
        let Encoding { octets, items } = encode(&datagram);
        for item in &items {
            let Some(fault) = fault(item.kind) else {
                continue;
            };
            let mut bad = octets.clone();
            bad[item.offset] = 1;
            let expected = Err(Refusal::new(fault, item.offset));
            assert_eq!(read(&bad), expected);
            assert_eq!(read(&bad[..item.offset + 4]), expected);
        }
    }
}

#[test]
fn each_padding_octet_is_tested() {
    for datagram in datagrams() {
        let Encoding { octets, items } = encode(&datagram);
        for item in &items {
            let end = item.offset + item.length;
            for place in end - item.padding..end {
                let mut bad = octets.clone();
                bad[place] = 0x80;
                assert_eq!(read(&bad), Err(Refusal::new(Fault::Padding, place)));
                assert_eq!(
                    read(&bad[..end - 1]),
                    Err(Refusal::new(Fault::Missing, item.offset))
                );
            }
        }
    }
}

#[test]
fn huge_counts_are_refused_where_an_entry_is_missing() {
    for datagram in datagrams() {
        let Encoding { octets, items } = encode(&datagram);
        for item in items.iter().filter(|item| item.kind == ItemKind::Count) {
            let end = item.offset + 4;
            let mut bad = octets[..end].to_vec();
            bad[item.offset..].fill(0xff);
            assert_eq!(read(&bad), Err(Refusal::new(Fault::Missing, end)));
        }
    }
}

#[test]
fn huge_lengths_are_refused_at_the_first_octet() {
    for datagram in datagrams() {
        let Encoding { octets, items } = encode(&datagram);
        for item in items
            .iter()
            .filter(|item| item.kind == ItemKind::StringLength)
        {
            let end = item.offset + 4;
            for length in [u32::MAX, u32::MAX - 1, u32::MAX - 2, u32::MAX - 3, 1 << 31] {
                let mut bad = octets.clone();
                bad[item.offset..end].copy_from_slice(&length.to_be_bytes());
                assert_eq!(read(&bad), Err(Refusal::new(Fault::Missing, end)));
            }
        }
    }
}

#[test]
fn random_small_words_get_an_answer() {
    let mut random = Random::new(2);
    for _ in 0..3000 {
        let count = random.below(120);
        let small = (0..count).flat_map(|_| (random.below(4) as u32).to_be_bytes());
        let mut octets = octets_of(&[4, 1, 9]);
        octets.extend(small);
        match read(&octets) {
            Ok(reading) => assert_eq!(encode(&reading.datagram).octets, octets),
            Err(refusal) => assert!(refusal.place <= octets.len()),
        }
    }
}
