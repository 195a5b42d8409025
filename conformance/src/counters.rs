//! The counter bodies: for each version its fields in the RFC's order.

/// How many octets a counter has.
#[derive(Clone, Copy, Debug, PartialEq, Eq)]
pub enum Width {
    /// 4 octets.
    Word,
    /// 8 octets.
    Hyper,
}

/// A counter's name in the RFC and its width.
#[derive(Clone, Copy, Debug, PartialEq, Eq)]
pub struct Field {
    /// The name in the RFC.
    pub name: &'static str,
    /// How many octets it has.
    pub width: Width,
}

const fn word(name: &'static str) -> Field {
    Field {
        name,
        width: Width::Word,
    }
}

const fn hyper(name: &'static str) -> Field {
    Field {
        name,
        width: Width::Hyper,
    }
}

/// The versions of counter bodies.
#[derive(Clone, Copy, Debug, PartialEq, Eq)]
pub enum CountersVersion {
    /// The counters of any interface.
    Generic = 1,
    /// Ethernet counters.
    Ethernet = 2,
    /// Token ring counters.
    Tokenring = 3,
    /// FDDI counters.
    Fddi = 4,
    /// 100 BaseVG counters.
    Vg = 5,
    /// WAN counters.
    Wan = 6,
    /// VLAN counters.
    Vlan = 7,
}

impl CountersVersion {
    /// All versions, by rising number.
    pub const ALL: [CountersVersion; 7] = [
        CountersVersion::Generic,
        CountersVersion::Ethernet,
        CountersVersion::Tokenring,
        CountersVersion::Fddi,
        CountersVersion::Vg,
        CountersVersion::Wan,
        CountersVersion::Vlan,
    ];

    /// The version's number.
    pub fn number(self) -> u32 {
        self as u32
    }

    /// The version with this number, if there is one.
    pub fn from_number(number: u32) -> Option<CountersVersion> {
        Self::ALL
            .into_iter()
            .find(|version| version.number() == number)
    }

    /// The fields of the version's body in their order.
    pub fn fields(self) -> impl Iterator<Item = Field> {
        let (generic, own): (&[Field], &[Field]) = match self {
            CountersVersion::Generic | CountersVersion::Fddi | CountersVersion::Wan => {
                (&IF_COUNTERS, &[])
            }
            CountersVersion::Ethernet => (&IF_COUNTERS, &ETHERNET_COUNTERS),
            CountersVersion::Tokenring => (&IF_COUNTERS, &TOKENRING_COUNTERS),
            CountersVersion::Vg => (&IF_COUNTERS, &VG_COUNTERS),
            CountersVersion::Vlan => (&[], &VLAN_COUNTERS),
        };
        generic.iter().chain(own).copied()
    }
}

/// The counters that every version but VLAN begins with.
const IF_COUNTERS: [Field; 19] = [
    word("ifIndex"),
    word("ifType"),
    hyper("ifSpeed"),
    word("ifDirection"),
    word("ifStatus"),
    hyper("ifInOctets"),
    word("ifInUcastPkts"),
    word("ifInMulticastPkts"),
    word("ifInBroadcastPkts"),
    word("ifInDiscards"),
    word("ifInErrors"),
    word("ifInUnknownProtos"),
    hyper("ifOutOctets"),
    word("ifOutUcastPkts"),
    word("ifOutMulticastPkts"),
    word("ifOutBroadcastPkts"),
    word("ifOutDiscards"),
    word("ifOutErrors"),
    word("ifPromiscuousMode"),
];

/// What Ethernet adds to the generic counters.
const ETHERNET_COUNTERS: [Field; 13] = [
    word("dot3StatsAlignmentErrors"),
    word("dot3StatsFCSErrors"),
    word("dot3StatsSingleCollisionFrames"),
    word("dot3StatsMultipleCollisionFrames"),
    word("dot3StatsSQETestErrors"),
    word("dot3StatsDeferredTransmissions"),
    word("dot3StatsLateCollisions"),
    word("dot3StatsExcessiveCollisions"),
    word("dot3StatsInternalMacTransmitErrors"),
    word("dot3StatsCarrierSenseErrors"),
    word("dot3StatsFrameTooLongs"),
    word("dot3StatsInternalMacReceiveErrors"),
    word("dot3StatsSymbolErrors"),
];

/// What token ring adds to the generic counters.
const TOKENRING_COUNTERS: [Field; 18] = [
    word("dot5StatsLineErrors"),
    word("dot5StatsBurstErrors"),
    word("dot5StatsACErrors"),
    word("dot5StatsAbortTransErrors"),
    word("dot5StatsInternalErrors"),
    word("dot5StatsLostFrameErrors"),
    word("dot5StatsReceiveCongestions"),
    word("dot5StatsFrameCopiedErrors"),
    word("dot5StatsTokenErrors"),
    word("dot5StatsSoftErrors"),
    word("dot5StatsHardErrors"),
    word("dot5StatsSignalLoss"),
    word("dot5StatsTransmitBeacons"),
    word("dot5StatsRecoverys"),
    word("dot5StatsLobeWires"),
    word("dot5StatsRemoves"),
    word("dot5StatsSingles"),
    word("dot5StatsFreqErrors"),
];

/// What 100 BaseVG adds to the generic counters.
const VG_COUNTERS: [Field; 14] = [
    word("dot12InHighPriorityFrames"),
    hyper("dot12InHighPriorityOctets"),
    word("dot12InNormPriorityFrames"),
    hyper("dot12InNormPriorityOctets"),
    word("dot12InIPMErrors"),
    word("dot12InOversizeFrameErrors"),
    word("dot12InDataErrors"),
    word("dot12InNullAddressedFrames"),
    word("dot12OutHighPriorityFrames"),
    hyper("dot12OutHighPriorityOctets"),
    word("dot12TransitionIntoTrainings"),
    hyper("dot12HCInHighPriorityOctets"),
    hyper("dot12HCInNormPriorityOctets"),
    hyper("dot12HCOutHighPriorityOctets"),
];

/// The whole VLAN body.
const VLAN_COUNTERS: [Field; 6] = [
    word("vlan_id"),
    hyper("octets"),
    word("ucastPkts"),
    word("multicastPkts"),
    word("broadcastPkts"),
    word("discards"),
];
