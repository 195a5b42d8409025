//! The encoder: a datagram's values to octets. It also notes every item it
//! writes, so that the generator knows where to damage the octets.
//!
//! The encoder tests nothing: values outside the grammar (a header protocol
//! of 14, a header of 257 octets) are written as they are.

use crate::counters::Width;
use crate::grammar;
use crate::value::*;

/// What an item is for.
#[derive(Clone, Copy, Debug, PartialEq, Eq, PartialOrd, Ord)]
pub enum ItemKind {
    // Words whose value the reader tests.
    /// The datagram's version.
    Version,
    /// The type of an agent address or next hop.
    AddressType,
    /// A sample's type.
    SampleType,
    /// The type of packet data.
    PacketDataType,
    /// The protocol of a sampled header.
    HeaderProtocol,
    /// The type of an entry of extended data.
    ExtendedType,
    /// The type of a path segment.
    SegmentType,
    /// The direction of a URL.
    UrlDirection,
    /// The version of a counter body.
    CountersVersion,
    // Words that say how much follows.
    /// The number of entries of a list.
    Count,
    /// The length of a sampled header, which is limited.
    HeaderLength,
    /// The length of any other string.
    StringLength,
    // Items with free values.
    /// A word with any value.
    Word,
    /// A hyper with any value.
    Hyper,
    /// The octets of an address.
    AddressOctets,
    /// A string's octets with their padding.
    StringOctets,
}

/// One item of the encoded octets.
#[derive(Clone, Copy, Debug, PartialEq, Eq)]
pub struct Item {
    /// What the item is for.
    pub kind: ItemKind,
    /// The place of its first octet.
    pub offset: usize,
    /// The item's octets, a string's padding included.
    pub length: usize,
    /// How many of them are padding.
    pub padding: usize,
}

/// A datagram's octets and their items from left to right.
#[derive(Clone, Debug, Default, PartialEq, Eq)]
pub struct Encoding {
    /// All octets.
    pub octets: Vec<u8>,
    /// The items that they are made of.
    pub items: Vec<Item>,
}

/// Encodes a datagram.
pub fn encode(datagram: &Datagram) -> Encoding {
    let mut out = Encoding::default();
    out.word(ItemKind::Version, grammar::VERSION4);
    out.address(&datagram.agent_address);
    out.free_words(&[datagram.sequence_number, datagram.uptime]);
    out.count(datagram.samples.len());
    for sample in &datagram.samples {
        out.sample(sample);
    }
    out
}

/// Encodes one sample, from its type word on.
pub fn encode_sample(sample: &Sample) -> Encoding {
    let mut out = Encoding::default();
    out.sample(sample);
    out
}

/// Encodes packet data, from their type word on.
pub fn encode_packet_data(packet_data: &PacketData) -> Encoding {
    let mut out = Encoding::default();
    out.packet_data(packet_data);
    out
}

/// Encodes one entry of extended data, from its type word on.
pub fn encode_extended_data(entry: &ExtendedData) -> Encoding {
    let mut out = Encoding::default();
    out.extended_data(entry);
    out
}

/// A number of entries or octets as a word.
fn as_word(number: usize) -> u32 {
    u32::try_from(number).unwrap_or(u32::MAX)
}

impl Encoding {
    /// Writes one item: its octets and as many zero octets of padding.
    fn item(&mut self, kind: ItemKind, octets: &[u8], padding: usize) {
        let offset = self.octets.len();
        self.octets.extend_from_slice(octets);
        self.octets.resize(self.octets.len() + padding, 0);
        let length = octets.len() + padding;
        self.items.push(Item {
            kind,
            offset,
            length,
            padding,
        });
    }

    fn word(&mut self, kind: ItemKind, value: u32) {
        self.item(kind, &value.to_be_bytes(), 0);
    }

    fn free_words(&mut self, values: &[u32]) {
        for &value in values {
            self.word(ItemKind::Word, value);
        }
    }

    fn count(&mut self, entries: usize) {
        self.word(ItemKind::Count, as_word(entries));
    }

    fn word_list(&mut self, values: &[u32]) {
        self.count(values.len());
        self.free_words(values);
    }

    fn string(&mut self, length_kind: ItemKind, octets: &[u8]) {
        self.word(length_kind, as_word(octets.len()));
        let padding = octets.len().next_multiple_of(4) - octets.len();
        self.item(ItemKind::StringOctets, octets, padding);
    }

    fn address(&mut self, address: &Address) {
        self.word(ItemKind::AddressType, address.type_number());
        match address {
            Address::IpV4(octets) => self.item(ItemKind::AddressOctets, octets, 0),
            Address::IpV6(octets) => self.item(ItemKind::AddressOctets, octets, 0),
        }
    }

    fn sample(&mut self, sample: &Sample) {
        match sample {
            Sample::Flow(flow) => self.flow_sample(flow),
            Sample::Counters(counters) => self.counters_sample(counters),
        }
    }

    fn flow_sample(&mut self, flow: &FlowSample) {
        self.word(ItemKind::SampleType, grammar::FLOWSAMPLE);
        self.free_words(&[
            flow.sequence_number,
            flow.source_id,
            flow.sampling_rate,
            flow.sample_pool,
            flow.drops,
            flow.input,
            flow.output,
        ]);
        self.packet_data(&flow.packet_data);
        self.count(flow.extended_data.len());
        for entry in &flow.extended_data {
            self.extended_data(entry);
        }
    }

    fn packet_data(&mut self, packet_data: &PacketData) {
        match packet_data {
            PacketData::Header(header) => self.header(header),
            PacketData::Ipv4(ipv4) => self.ipv4(ipv4),
            PacketData::Ipv6(ipv6) => self.ipv6(ipv6),
        }
    }

    fn header(&mut self, header: &SampledHeader) {
        self.word(ItemKind::PacketDataType, grammar::HEADER);
        self.word(ItemKind::HeaderProtocol, header.protocol);
        self.free_words(&[header.frame_length]);
        self.string(ItemKind::HeaderLength, &header.header);
    }

    fn ipv4(&mut self, ipv4: &SampledIpv4) {
        self.word(ItemKind::PacketDataType, grammar::IPV4);
        self.free_words(&[ipv4.length, ipv4.protocol]);
        self.item(ItemKind::AddressOctets, &ipv4.src_ip, 0);
        self.item(ItemKind::AddressOctets, &ipv4.dst_ip, 0);
        self.free_words(&[ipv4.src_port, ipv4.dst_port, ipv4.tcp_flags, ipv4.tos]);
    }

    fn ipv6(&mut self, ipv6: &SampledIpv6) {
        self.word(ItemKind::PacketDataType, grammar::IPV6);
        self.free_words(&[ipv6.length, ipv6.protocol]);
        self.item(ItemKind::AddressOctets, &ipv6.src_ip, 0);
        self.item(ItemKind::AddressOctets, &ipv6.dst_ip, 0);
        self.free_words(&[ipv6.src_port, ipv6.dst_port, ipv6.tcp_flags, ipv6.priority]);
    }

    fn extended_data(&mut self, entry: &ExtendedData) {
        match entry {
            ExtendedData::Switch(switch) => self.switch(switch),
            ExtendedData::Router(router) => self.router(router),
            ExtendedData::Gateway(gateway) => self.gateway(gateway),
            ExtendedData::User(user) => self.user(user),
            ExtendedData::Url(url) => self.url(url),
        }
    }

    fn switch(&mut self, switch: &ExtendedSwitch) {
        self.word(ItemKind::ExtendedType, grammar::SWITCH);
        self.free_words(&[
            switch.src_vlan,
            switch.src_priority,
            switch.dst_vlan,
            switch.dst_priority,
        ]);
    }

    fn router(&mut self, router: &ExtendedRouter) {
        self.word(ItemKind::ExtendedType, grammar::ROUTER);
        self.address(&router.nexthop);
        self.free_words(&[router.src_mask, router.dst_mask]);
    }

    fn gateway(&mut self, gateway: &ExtendedGateway) {
        self.word(ItemKind::ExtendedType, grammar::GATEWAY);
        self.free_words(&[gateway.r#as, gateway.src_as, gateway.src_peer_as]);
        self.count(gateway.dst_as_path.len());
        for segment in &gateway.dst_as_path {
            self.word(ItemKind::SegmentType, segment.type_number());
            self.word_list(segment.numbers());
        }
        self.word_list(&gateway.communities);
        self.free_words(&[gateway.localpref]);
    }

    fn user(&mut self, user: &ExtendedUser) {
        self.word(ItemKind::ExtendedType, grammar::USER);
        self.string(ItemKind::StringLength, &user.src_user);
        self.string(ItemKind::StringLength, &user.dst_user);
    }

    fn url(&mut self, url: &ExtendedUrl) {
        self.word(ItemKind::ExtendedType, grammar::URL);
        self.word(ItemKind::UrlDirection, url.direction.number());
        self.string(ItemKind::StringLength, &url.url);
    }

    fn counters_sample(&mut self, sample: &CountersSample) {
        self.word(ItemKind::SampleType, grammar::COUNTERSSAMPLE);
        self.free_words(&[
            sample.sequence_number,
            sample.source_id,
            sample.sampling_interval,
        ]);
        self.word(ItemKind::CountersVersion, sample.version.number());
        // A body with too few numbers is filled up with zero.
        let numbers = sample.counters.iter().copied().chain(std::iter::repeat(0));
        for (field, number) in sample.version.fields().zip(numbers) {
            match field.width {
                Width::Word => self.word(ItemKind::Word, number as u32),
                Width::Hyper => self.item(ItemKind::Hyper, &number.to_be_bytes(), 0),
            }
        }
    }
}
