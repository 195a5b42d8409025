//! The text of the answers, line by line, for octets written by hand.

use conformance::cases::{cases, octets_of};
use conformance::dump::answer;

#[test]
fn cases_of_the_reader() {
    let expected = "refused 1 at 0\n\
                    refused 2 at 0\n\
                    accepted agent 1 167772167 0 0 0 sequence 1 uptime 1000 samples 0 first 24\n\
                    refused 1 at 20\n\
                    refused 13 at 24\n\
                    refused 1 at 24\n\
                    accepted agent 1 167772167 0 0 0 sequence 1 uptime 1000 samples 1 first 24\n\
                    counters 24 48 5 16777316 20 7 100 0 0 0 0 0\n\
                    refused 11 at 40\n\
                    refused 12 at 78\n\
                    refused 7 at 68\n\
                    accepted agent 1 167772167 0 0 0 sequence 1 uptime 1000 samples 1 first 24\n\
                    flow 24 308 9 3 512 4096 0 1 2\n\
                    \x20header 1 64 72 256\n";
    let text: String = cases().iter().map(|case| answer(&case.octets)).collect();
    assert_eq!(text, expected);
}

#[test]
fn counters_from_an_ipv6_address() {
    let beginning = octets_of(&[4, 2, 1, 2, 3, 4, 5, 6, 1]);
    let sample = octets_of(&[2, 7, 8, 9, 7, 100, 1, 2, 11, 12, 13, 14]);
    let expected = "accepted agent 2 1 2 3 4 sequence 5 uptime 6 samples 1 first 36\n\
                    counters 36 48 7 8 9 7 100 4294967298 11 12 13 14\n";
    assert_eq!(answer(&[beginning, sample].concat()), expected);
}

#[test]
fn header_with_strings() {
    let beginning = octets_of(&[4, 1, 0x0a00_0007, 1, 1000, 1]);
    let sample = octets_of(&[1, 9, 3, 512, 4096, 0, 1, 2]);
    let header = octets_of(&[1, 13, 64, 5, 0x0102_0304, 0x0500_0000]);
    let switch = octets_of(&[4, 1, 21, 22, 23, 24]);
    let router = octets_of(&[2, 2, 31, 32, 33, 34, 35, 36]);
    let user = octets_of(&[4, 1, 0x4100_0000, 0]);
    let url = octets_of(&[5, 2, 4, 0x2f61_6263]);
    let parts = [beginning, sample, header, switch, router, user, url];
    let expected = "accepted agent 1 167772167 0 0 0 sequence 1 uptime 1000 samples 1 first 24\n\
                    flow 24 144 9 3 512 4096 0 1 2\n\
                    \x20header 13 64 72 5\n\
                    \x20switch 21 22 23 24\n\
                    \x20router 2 31 32 33 34 35 36\n\
                    \x20user 144 1 152 0\n\
                    \x20url 2 164 4\n";
    assert_eq!(answer(&parts.concat()), expected);
}

#[test]
fn ip_data_with_a_gateway() {
    let beginning = octets_of(&[4, 1, 1, 2, 3, 2]);
    let sample = octets_of(&[1, 9, 3, 512, 4096, 0, 1, 2]);
    let ipv4 = octets_of(&[2, 40, 6, 10, 11, 80, 81, 2, 1]);
    let gateway = octets_of(&[1, 3, 100, 101, 102, 2, 2, 2, 103, 104, 1, 0, 0, 105]);
    let ipv6 = octets_of(&[3, 40, 6, 1, 2, 3, 4, 5, 6, 7, 8, 80, 81, 2, 9, 0]);
    let parts = [beginning, sample.clone(), ipv4, gateway, sample, ipv6];
    let expected = "accepted agent 1 1 0 0 0 sequence 2 uptime 3 samples 2 first 24\n\
                    flow 24 124 9 3 512 4096 0 1 2\n\
                    \x20ipv4 40 6 10 11 80 81 2 1\n\
                    \x20gateway 100 101 102\n\
                    \x20 segment 2 103 104\n\
                    \x20 segment 1\n\
                    \x20 communities\n\
                    \x20 localpref 105\n\
                    flow 148 96 9 3 512 4096 0 1 2\n\
                    \x20ipv6 40 6 1 2 3 4 5 6 7 8 80 81 2 9\n";
    assert_eq!(answer(&parts.concat()), expected);
}
