//! A collector of sFlow version 4 datagrams:
//!
//! ```text
//! collector PORT COUNT
//! ```
//!
//! listens on 127.0.0.1, UDP port PORT (0: any free one, which it prints), receives COUNT datagrams
//! and prints what it counted: datagrams refused, by number and place; what each source of flow
//! samples has lost; packets by what the rules say of them.
use std::collections::BTreeMap;
use std::io::{self, ErrorKind, Write};
use std::net::{IpAddr, Ipv4Addr, UdpSocket};
use std::process::ExitCode;
use troutgable::{
    check, read, run, Answer, Attribute, FlowSample, Key, Ledger, Opcode, Rule, Sample,
};

const USAGE: &str = "collector receives sFlow datagrams on 127.0.0.1 and prints what it counted:
  collector PORT COUNT
PORT is the UDP port, 0 to 65535 (0: any free one); COUNT is how many datagrams, 1 to 4294967295.";

/// Counts TCP and UDP packets by protocol and destination port, all other IP packets together.
fn rules() -> Vec<u8> {
    let rule = |attribute, opcode, value, parameter| Rule {
        attribute,
        opcode,
        mask: 0xffff_ffff,
        value,
        parameter,
        ..Rule::default()
    };
    let all = [
        // 1: the packet is not seen to be IP: it is ignored
        rule(Attribute::SourcePeerType, Opcode::Ignore, 0, 0),
        // 2: TCP: the protocol is queued, and rule 5 follows, untested
        rule(Attribute::SourceTransType, Opcode::PushPktToAct, 6, 5),
        // 3: UDP: the same
        rule(Attribute::SourceTransType, Opcode::PushPktToAct, 17, 5),
        // 4: a test of Null always succeeds: counted with nothing in the key
        Rule {
            opcode: Opcode::Count,
            ..Rule::default()
        },
        // 5: the packet's port goes into the key too; one item, the protocol, is held on arrival
        Rule {
            held: 1,
            ..rule(Attribute::DestTransAddress, Opcode::CountPkt, 0, 0)
        },
    ];
    all.iter().flat_map(Rule::octets).collect()
}

/// What was counted.
#[derive(Default)]
struct Counts {
    datagrams: u64,
    refused: BTreeMap<(u32, usize), u64>,
    flow_samples: u64,
    counter_samples: u64,
    ledger: Ledger,
    not_entered: BTreeMap<u32, u64>,
    answers: BTreeMap<(Option<Answer>, Key), u64>,
}

impl Counts {
    fn take_datagram(&mut self, octets: &[u8], rules: &[u8]) {
        self.datagrams += 1;
        let head = match read(octets) {
            Ok(head) => head,
            Err(refusal) => {
                *self
                    .refused
                    .entry((refusal.number(), refusal.place))
                    .or_default() += 1;
                return;
            }
        };
        for sample in head.samples() {
            match sample {
                Sample::Flow(flow) => self.take_flow(head.agent, &flow, rules),
                Sample::Counter(_) => self.counter_samples += 1,
            }
        }
    }

    fn take_flow(&mut self, agent: IpAddr, flow: &FlowSample<'_>, rules: &[u8]) {
        self.flow_samples += 1;
        if let Err(refusal) = self.ledger.enter(agent, &flow.words) {
            *self.not_entered.entry(refusal.number()).or_default() += 1;
        }
        let answer = match run(rules, flow.octets) {
            Ok(outcome) => (Some(outcome.answer), outcome.key),
            Err(_) => (None, Key::default()),
        };
        *self.answers.entry(answer).or_default() += 1;
    }

    fn print(&self, to: &mut impl Write) -> io::Result<()> {
        writeln!(
            to,
            "datagrams {} refused {}",
            self.datagrams,
            self.refused.values().sum::<u64>()
        )?;
        for ((number, place), times) in &self.refused {
            writeln!(to, "refused {number} at {place}: {times}")?;
        }
        let (flow, counters) = (self.flow_samples, self.counter_samples);
        writeln!(
            to,
            "samples {} flow {flow} counters {counters}",
            flow + counters
        )?;
        for row in self.ledger.rows() {
            let (source, agent) = (row.source_id, address_text(row.agent));
            writeln!(
                to,
                "source {source} of {agent}: lost {} pool {}",
                row.lost_total, row.pool_total
            )?;
        }
        for (number, times) in &self.not_entered {
            writeln!(to, "not entered {number}: {times}")?;
        }
        for ((answer, key), times) in &self.answers {
            writeln!(to, "{}{}: {times}", answer_name(*answer), key_text(key))?;
        }
        to.flush()
    }
}

fn answer_name(answer: Option<Answer>) -> String {
    answer.map_or("refused".to_string(), |answer| format!("{answer:?}"))
}

fn key_text(key: &Key) -> String {
    let item = |(attribute, _, value)| match attribute {
        Attribute::SourceTransType => format!(" protocol {value}"),
        Attribute::DestTransAddress => format!(" port {value}"),
        _ => format!(" attribute {value}"),
    };
    key.items().map(item).collect()
}

/// IPv4 with dots, IPv6 as 32 hex digits.
fn address_text(address: IpAddr) -> String {
    match address {
        IpAddr::V4(v4) => v4.to_string(),
        IpAddr::V6(v6) => format!("{:032x}", u128::from(v6)),
    }
}

/// A socket on 127.0.0.1; its port is printed.
fn listen_on(port: u16) -> Result<UdpSocket, String> {
    let told = |what: &str, error: io::Error| format!("{what}: {error}");
    let socket = UdpSocket::bind((Ipv4Addr::LOCALHOST, port))
        .map_err(|e| told("cannot listen on this port of 127.0.0.1", e))?;
    let address = socket
        .local_addr()
        .map_err(|e| told("cannot tell the port", e))?;
    writeln!(
        io::stdout(),
        "listening on 127.0.0.1 port {}",
        address.port()
    )
    .map_err(|e| told("cannot print", e))?;
    Ok(socket)
}

fn collect(port: u16, count: u64) -> Result<(), String> {
    let (rules, mut counts, mut octets) = (rules(), Counts::default(), vec![0; 65536]);
    check(&rules).map_err(|refusal| format!("the rule set is {refusal}"))?;
    let socket = listen_on(port)?;
    while counts.datagrams < count {
        match socket.recv(&mut octets) {
            Ok(n) => counts.take_datagram(&octets[..n], &rules),
            Err(error) if error.kind() == ErrorKind::Interrupted => {}
            Err(error) => return Err(format!("cannot receive: {error}")),
        }
    }
    counts
        .print(&mut io::stdout().lock())
        .map_err(|error| format!("cannot print: {error}"))
}

/// The number that a text of digits alone is.
fn number_in(text: &str, max: u64) -> Option<u64> {
    let digits = text.bytes().all(|octet| octet.is_ascii_digit());
    text.parse().ok().filter(|number| digits && *number <= max)
}

fn arguments() -> Option<(u16, u64)> {
    let given: Vec<String> = std::env::args_os()
        .skip(1)
        .map(|word| word.to_string_lossy().into_owned())
        .collect();
    let [port, count] = given.as_slice() else {
        return None;
    };
    let count = number_in(count, u32::MAX.into()).filter(|count| *count > 0)?;
    Some((number_in(port, 65535)? as u16, count))
}

fn main() -> ExitCode {
    let Some((port, count)) = arguments() else {
        eprintln!("{USAGE}");
        return ExitCode::from(2);
    };
    match collect(port, count) {
        Ok(()) => ExitCode::SUCCESS,
        Err(what) => {
            eprintln!("collector: {what}");
            ExitCode::FAILURE
        }
    }
}
