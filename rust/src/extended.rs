//! Extended data of a flow sample.
use crate::address;
use crate::calls;
use crate::octets::{part, Words};
use crate::refusal::Refusal;
use std::net::IpAddr;

/// An extended entry.
#[derive(Clone, Debug, PartialEq, Eq)]
pub enum Extended<'a> {
    /// type 1
    Switch(Switch),
    /// type 2
    Router(Router),
    /// type 3
    Gateway(Gateway<'a>),
    /// type 4
    User(User<'a>),
    /// type 5
    Url(Url<'a>),
}

/// VLANs and priorities of the packet in a switch.
#[derive(Clone, Copy, Debug, PartialEq, Eq)]
pub struct Switch {
    /// the VLAN it came by
    pub source_vlan: u32,
    /// its priority there
    pub source_priority: u32,
    /// the VLAN it went to
    pub destination_vlan: u32,
    /// its priority there
    pub destination_priority: u32,
}

/// What a router knows of the packet's way.
#[derive(Clone, Copy, Debug, PartialEq, Eq)]
pub struct Router {
    /// the next router
    pub next_hop: IpAddr,
    /// prefix length of the source's address
    pub source_mask: u32,
    /// prefix length of the destination's address
    pub destination_mask: u32,
}

/// What a gateway knows of the packet's way through autonomous systems.
#[derive(Clone, Debug, PartialEq, Eq)]
pub struct Gateway<'a> {
    octets: &'a [u8],
    first_segment: usize,
    /// the router's autonomous system
    pub router_as: u32,
    /// the source's autonomous system
    pub source_as: u32,
    /// that of the source's peer
    pub source_peer_as: u32,
    /// how many segments the path to the destination has
    pub segment_count: u32,
    /// the communities of the route
    pub communities: Words<'a>,
    /// the local preference of the route
    pub local_preference: u32,
}

impl<'a> Gateway<'a> {
    /// The segments of the path to the destination, in their order. There are `segment_count` of
    /// them.
    pub fn segments(&self) -> Segments<'a> {
        Segments {
            octets: self.octets,
            at: self.first_segment,
            left: self.segment_count,
        }
    }
}

/// The users of the packet's ends, in the octets that the agent sent.
#[derive(Clone, Copy, Debug, PartialEq, Eq)]
pub struct User<'a> {
    /// the source's user
    pub source: &'a [u8],
    /// the destination's user
    pub destination: &'a [u8],
}

/// A URL that the packet belongs to, in the octets that the agent sent.
#[derive(Clone, Copy, Debug, PartialEq, Eq)]
pub struct Url<'a> {
    /// whose URL it is
    pub direction: Direction,
    /// the URL
    pub url: &'a [u8],
}

/// The end of the packet that a URL belongs to.
#[derive(Clone, Copy, Debug, PartialEq, Eq)]
pub enum Direction {
    /// 1
    Source,
    /// 2
    Destination,
}

/// Reads the extended entry whose type word is at an offset, and answers it with the offset behind
/// it. An offset past the end is a cut item there.
///
/// ```
/// use troutgable::{read_extended, Direction, Extended, Reason, Url};
///
/// let octets = [0, 0, 0, 5, 0, 0, 0, 2, 0, 0, 0, 5, b'/', b'h', b'o', b'm', b'e', 0, 0, 0];
/// let (entry, next) = read_extended(&octets, 0)?;
/// assert_eq!(entry, Extended::Url(Url { direction: Direction::Destination, url: b"/home" }));
/// assert_eq!(next, 20);
/// assert_eq!(read_extended(&octets, 20).unwrap_err().reason, Reason::CutItem);
/// # Ok::<(), troutgable::Refusal>(())
/// ```
pub fn read_extended(octets: &[u8], at: usize) -> Result<(Extended<'_>, usize), Refusal> {
    let mut out = [0; 10];
    match calls::extended(octets, at, &mut out) {
        0 => Ok((entry(octets, &out), out[1] as usize)),
        number => Err(Refusal::of(number, out[0])),
    }
}

fn entry<'a>(octets: &'a [u8], out: &[u64; 10]) -> Extended<'a> {
    let [kind, _, a, b, c, d, e, f, g, _] = *out;
    match kind {
        1 => Extended::Switch(Switch {
            source_vlan: a as u32,
            source_priority: b as u32,
            destination_vlan: c as u32,
            destination_priority: d as u32,
        }),
        2 => Extended::Router(Router {
            next_hop: address::of(a, [b, c, d, e]),
            source_mask: f as u32,
            destination_mask: g as u32,
        }),
        3 => Extended::Gateway(gateway(octets, out)),
        4 => Extended::User(User {
            source: part(octets, a, b),
            destination: part(octets, c, d),
        }),
        _ => Extended::Url(Url {
            direction: if a == 1 {
                Direction::Source
            } else {
                Direction::Destination
            },
            url: part(octets, b, c),
        }),
    }
}

fn gateway<'a>(octets: &'a [u8], out: &[u64; 10]) -> Gateway<'a> {
    let [_, _, router, source, peer, segments, first_segment, communities, first_community, preference] =
        *out;
    Gateway {
        octets,
        first_segment: first_segment as usize,
        router_as: router as u32,
        source_as: source as u32,
        source_peer_as: peer as u32,
        segment_count: segments as u32,
        communities: Words::new(octets, first_community, communities),
        local_preference: preference as u32,
    }
}

/// Extended entries, in their order.
#[derive(Clone, Debug)]
pub struct ExtendedEntries<'a> {
    octets: &'a [u8],
    at: usize,
    left: u32,
}

impl<'a> ExtendedEntries<'a> {
    pub(crate) fn new(octets: &'a [u8], at: usize, left: u32) -> ExtendedEntries<'a> {
        ExtendedEntries { octets, at, left }
    }
}

impl<'a> Iterator for ExtendedEntries<'a> {
    type Item = Extended<'a>;

    fn next(&mut self) -> Option<Extended<'a>> {
        self.left = self.left.checked_sub(1)?;
        let Ok((entry, next)) = read_extended(self.octets, self.at) else {
            self.left = 0;
            return None;
        };
        self.at = next;
        Some(entry)
    }
}

/// A part of the path to a destination.
#[derive(Clone, Debug, PartialEq, Eq)]
pub struct Segment<'a> {
    /// whether the numbers have an order
    pub kind: SegmentKind,
    /// the numbers of the autonomous systems
    pub numbers: Words<'a>,
}

/// Whether a path segment's numbers have an order.
#[derive(Clone, Copy, Debug, PartialEq, Eq)]
pub enum SegmentKind {
    /// 1: no order
    Set,
    /// 2: in the order of the path
    Sequence,
}

/// Reads the path segment at an offset, and answers it with the offset behind it. An offset past
/// the end is a cut item there.
///
/// ```
/// use troutgable::{read_segment, Reason, SegmentKind};
///
/// let octets = [0, 0, 0, 2, 0, 0, 0, 2, 0, 0, 253, 232, 0, 0, 253, 233];
/// let (segment, next) = read_segment(&octets, 0)?;
/// assert_eq!((segment.kind, next), (SegmentKind::Sequence, 16));
/// assert_eq!(segment.numbers.collect::<Vec<_>>(), [65000, 65001]);
/// assert_eq!(read_segment(&octets, 8).unwrap_err().reason, Reason::SegmentType);
/// # Ok::<(), troutgable::Refusal>(())
/// ```
pub fn read_segment(octets: &[u8], at: usize) -> Result<(Segment<'_>, usize), Refusal> {
    let mut out = [0; 4];
    let number = calls::segment(octets, at, &mut out);
    let [kind, next, count, first] = out;
    if number != 0 {
        return Err(Refusal::of(number, kind));
    }
    let kind = if kind == 1 {
        SegmentKind::Set
    } else {
        SegmentKind::Sequence
    };
    let numbers = Words::new(octets, first, count);
    Ok((Segment { kind, numbers }, next as usize))
}

/// The segments of a path, in their order.
#[derive(Clone, Debug)]
pub struct Segments<'a> {
    octets: &'a [u8],
    at: usize,
    left: u32,
}

impl<'a> Iterator for Segments<'a> {
    type Item = Segment<'a>;

    fn next(&mut self) -> Option<Segment<'a>> {
        self.left = self.left.checked_sub(1)?;
        let Ok((segment, next)) = read_segment(self.octets, self.at) else {
            self.left = 0;
            return None;
        };
        self.at = next;
        Some(segment)
    }
}
