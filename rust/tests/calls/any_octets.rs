//! Damaged datagrams: everything is answered, nothing panics, and an accepted datagram has as many
//! samples as it says.
use crate::forms;
use troutgable::*;

/// A row of numbers that look random.
struct Numbers(u64);

impl Numbers {
    fn below(&mut self, end: usize) -> usize {
        self.0 = self
            .0
            .wrapping_mul(6364136223846793005)
            .wrapping_add(1442695040888963407);
        (self.0 >> 33) as usize % end
    }
}

fn look_at(octets: &[u8], at: usize) {
    let _ = read_extended(octets, at).map(|(entry, _)| format!("{entry:?}"));
    let _ = read_segment(octets, at).map(|(segment, _)| segment.numbers.count());
    if let Ok(Sample::Flow(flow)) = read_sample(octets, at) {
        assert_eq!(flow.extended().count(), flow.extended_count as usize);
        let _ = run(octets, flow.octets);
    }
    let _ = check(octets);
}

#[test]
fn damaged() {
    let (capture, _) = forms::capture("every-form");
    let datagrams = forms::datagrams(&capture);
    let mut numbers = Numbers(1);
    let mut accepted = 0;
    for turn in 0..4000 {
        let mut octets = datagrams[turn % datagrams.len()].to_vec();
        for _ in 0..1 + numbers.below(2) {
            let place = numbers.below(octets.len());
            octets[place] = numbers.below(256) as u8;
        }
        if let Ok(head) = read(&octets) {
            accepted += 1;
            assert_eq!(head.samples().count(), head.sample_count as usize);
        }
        octets.truncate(numbers.below(octets.len()));
        assert!(read(&octets).is_err());
        look_at(&octets, numbers.below(octets.len() + 9));
    }
    assert!(accepted > 100 && accepted < 3900, "{accepted}");
}
