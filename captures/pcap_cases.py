"""Tries captures/from_pcap on packet files made here: what it takes, and that it counts every packet that it leaves out.

Each case says which packets go into a file, which datagrams come out and, line for line, what is told. captures/check runs them; by itself this file runs them
alone. Most run from_pcap inside this program, which takes a hundredth of the time; those that begin with "program" run it as one.
"""
import importlib.machinery
import importlib.util
import io
import os
import pty
import struct
import subprocess
import sys
import tempfile
from unittest import mock

sys.dont_write_bytecode = True
HERE = os.path.dirname(os.path.abspath(__file__))
PATIENCE = 60
PORT = 6343
DATAGRAM = bytes(range(1, 38))
ETHERNET, LINUX_COOKED, LINUX_COOKED_2 = 1, 113, 276
FCS_BITS = 0x24000000
MAGICS = {'microseconds': 0xa1b2c3d4, 'nanoseconds': 0xa1b23c4d}


# packets


def udp(datagram=DATAGRAM, port=PORT, length=None):
    return struct.pack('>HHHH', 40000, port, 8 + len(datagram) if length is None else length, 0) + datagram


def ipv4(payload, protocol=17, options=b'', fragment=0, length=None, words=None):
    """An IPv4 packet; its length and the words of its head may be given wrong."""
    head = 20 + len(options)
    first = 0x40 | (head // 4 if words is None else words)
    total = head + len(payload) if length is None else length
    return struct.pack('>BBHHHBBH', first, 0, total, 1, fragment, 64, protocol, 0) + bytes(8) + options + payload


def ipv6(payload, kind=17, length=None):
    return struct.pack('>IHBB', 0x60000000, len(payload) if length is None else length, kind, 64) + bytes(32) + payload


def extension(following, payload, words=0, unit=8):
    """An extension header of 8 octets and so many units more."""
    return bytes((following, words)) + bytes(6 + words * unit) + payload


def fragment6(following, payload, place):
    """A fragment header, with something in the octet that means nothing."""
    return struct.pack('>BBHI', following, 5, place, 7) + payload


def ethernet(payload, kind=0x0800, tags=()):
    return bytes(12) + b''.join(struct.pack('>HH', tag, 7) for tag in tags) + struct.pack('>H', kind) + payload


def cooked(payload, kind=0x0800):
    return bytes(14) + struct.pack('>H', kind) + payload


def cooked2(payload, kind=0x0800):
    return struct.pack('>H', kind) + bytes(18) + payload


# packet files


def pcap(frames, link=ETHERNET, order='<', times='microseconds', lengths=None):
    """A pcap file; `lengths` gives kept and whole of each packet where they are not the frame's."""
    data = struct.pack(order + 'IHHIIII', MAGICS[times], 2, 4, 0, 0, 262144, link)
    for number, frame in enumerate(frames):
        kept, whole = lengths[number] if lengths else (len(frame), len(frame))
        data += struct.pack(order + 'IIII', 0, 0, kept, whole) + frame
    return data


def block(order, kind, body):
    body += bytes(-len(body) % 4)
    return struct.pack(order + 'II', kind, 12 + len(body)) + body + struct.pack(order + 'I', 12 + len(body))


def section(order):
    return block(order, 0x0a0d0d0a, struct.pack(order + 'IHHq', 0x1a2b3c4d, 1, 0, -1))


def interface(order, link=ETHERNET, longest=0):
    return block(order, 1, struct.pack(order + 'HHI', link, 0, longest))


def enhanced(order, frame, number=0, kept=None, whole=None):
    kept = len(frame) if kept is None else kept
    return block(order, 6, struct.pack(order + 'IIIII', number, 0, 0, kept, kept if whole is None else whole) + frame)


def obsolete(order, frame, number=0):
    return block(order, 2, struct.pack(order + 'HHIIII', number, 0xffff, 0, 0, len(frame), len(frame)) + frame)


def simple(order, frame, whole=None):
    return block(order, 3, struct.pack(order + 'I', len(frame) if whole is None else whole) + frame)


# what is told


def told(packets, datagrams, left, more=()):
    """The lines for so many packets: datagrams taken, and counts and reasons of what is left out, in the order told."""
    lines = [f'packets {packets}: datagrams taken {len(datagrams)}, packets left out {sum(count for count, _ in left)}']
    lines += [f'left out {count}: {reason}' for count, reason in left] + list(more)
    ports = [reason.partition(': ')[2] for _, reason in left if reason.startswith('UDP to another port: ')]
    if not datagrams:
        went = f'UDP went to {ports[0]}; --port takes another' if ports else 'no UDP went to another port'
        lines.append(f'0 datagrams of {packets} packets went whole to port {PORT}; {went}')
    return ''.join(f'from_pcap: {line}\n' for line in lines)


def capture(datagrams):
    return b''.join(b'\x73\x46' + struct.pack('>H', len(datagram)) + datagram for datagram in datagrams)


def program(data, *options):
    """Runs from_pcap as a program: status, standard output, standard error."""
    done = subprocess.run([sys.executable, os.path.join(HERE, 'from_pcap'), *options, '-'], input=data, capture_output=True, timeout=PATIENCE)
    return done.returncode, done.stdout, done.stderr.decode()


def loaded():
    loader = importlib.machinery.SourceFileLoader('from_pcap', os.path.join(HERE, 'from_pcap'))
    module = importlib.util.module_from_spec(importlib.util.spec_from_loader('from_pcap', loader))
    loader.exec_module(module)
    return module


def called(module, data, *options):
    """Runs from_pcap in this program, with the same answer."""
    given, out, err = io.TextIOWrapper(io.BytesIO(data)), tempfile.TemporaryFile('w+'), io.StringIO()
    with out, mock.patch.multiple(sys, argv=['from_pcap', *options, '-'], stdin=given, stdout=out, stderr=err):
        try:
            module.main()
            end = 0
        except SystemExit as why:
            end = why.code
        out.seek(0)
        written = out.buffer.read()
    return (1, written, f'{err.getvalue()}{end}\n') if isinstance(end, str) else (end, written, err.getvalue())


class Cases:
    """Runs cases, tells which fail, counts them."""

    def __init__(self, tell):
        self.tell, self.count, self.module = tell, 0, loaded()

    def expect(self, name, good):
        self.count += 1
        self.tell(f'from_pcap, {name}', good)

    def file(self, name, data, packets, datagrams, left=(), more=(), wrong=''):
        """A packet file with what comes of it; taken and left out have to be all of its packets."""
        assert packets == len(datagrams) + sum(count for count, _ in left), name
        lines = told(packets, datagrams, left, more)
        if wrong:
            lines += f'from_pcap: standard input: {wrong}; what came before it is written\n'
        wanted = (1 if wrong else 0, capture(datagrams), lines)
        found = program(data) if name.startswith('program') else called(self.module, data)
        self.expect(name if found == wanted else f'{name}: {found[2].strip()}', found == wanted)

    def taken(self, name, frame, link=ETHERNET):
        self.file(name, pcap([frame, frame], link), 2, [DATAGRAM] * 2)

    def left(self, name, frame, reason, link=ETHERNET):
        self.file(name, pcap([frame], link), 1, [], [(1, reason)])


def links(cases):
    """Every link that is taken, and what it carries otherwise."""
    four, six = ipv4(udp()), ipv6(udp())
    for name, tags in (('no tag', ()), ('a VLAN tag', (0x8100,)), ('QinQ', (0x88a8, 0x8100)), ('an old QinQ', (0x9100, 0x8100)), ('three tags', (0x8100,) * 3)):
        cases.taken(f'Ethernet with {name}', ethernet(four, tags=tags))
        cases.taken(f'Ethernet with {name}, IPv6', ethernet(six, 0x86dd, tags))
    for name, link, make in (('Linux cooked', LINUX_COOKED, cooked), ('Linux cooked 2', LINUX_COOKED_2, cooked2)):
        cases.taken(name, make(four), link)
        cases.taken(f'{name}, IPv6', make(six, 0x86dd), link)
        cases.taken(f'{name} with a VLAN tag', make(struct.pack('>HH', 7, 0x0800) + four, 0x8100), link)
        cases.left(f'{name}, ARP', make(four, 0x0806), 'other Ethernet type: 0x0806 (1)', link)
    for link in (12, 14, 101):
        cases.taken(f'raw IP, link {link}', four, link)
        cases.taken(f'raw IP, link {link}, IPv6', six, link)
        cases.left(f'raw IP, link {link}, version 5', b'\x55' + four[1:], 'other IP version than its link says: 5 (1)', link)
    cases.taken('raw IPv4', four, 228)
    cases.taken('raw IPv6', six, 229)
    cases.left('raw IPv4 with version 6', six, 'other IP version than its link says: 6 (1)', 228)
    cases.left('raw IPv6 with version 4', four, 'other IP version than its link says: 4 (1)', 229)
    cases.left('Ethernet, IPv4 with version 6', ethernet(six), 'other IP version than its link says: 6 (1)')
    cases.left('Ethernet, IPv6 with version 4', ethernet(four, 0x86dd), 'other IP version than its link says: 4 (1)')
    for order, times in (('<', 'microseconds'), ('<', 'nanoseconds'), ('>', 'microseconds'), ('>', 'nanoseconds')):
        cases.file(f'pcap, order {order}, {times}', pcap([ethernet(four)], order=order, times=times), 1, [DATAGRAM])
    cases.taken('link type with FCS bits', ethernet(four) + b'\1\2\3\4', FCS_BITS | ETHERNET)


def loopbacks(cases):
    four, six = ipv4(udp()), ipv6(udp())
    for link in (0, 108):
        for order in '<>':
            cases.taken(f'loopback {link}, order {order}, IPv4', struct.pack(order + 'I', 2) + four, link)
            for family in (10, 23, 24, 28, 30):
                cases.taken(f'loopback {link}, order {order}, IPv6 as {family}', struct.pack(order + 'I', family) + six, link)
        cases.left(f'loopback {link}, another family', struct.pack('>I', 7) + four, 'other loopback family: 0x00000007 (1)', link)
        cases.left(f'loopback {link}, IPv4 with version 6', struct.pack('>I', 2) + six, 'other IP version than its link says: 6 (1)', link)


def others(cases):
    """What is counted by number: link types, Ethernet types, protocols, ports."""
    four = ipv4(udp())
    cases.left('another link type', ethernet(four), 'other link type: 105 (1)', 105)
    frames = [ethernet(four, kind) for kind in (0x0806, 0x88cc, 0x0806, 0x05ff, 0x0600, 0x0026)]
    reason = (6, 'other Ethernet type: 0x0806 (2), IEEE 802.3 (2), 0x0600 (1), 0x88cc (1)')
    cases.file('Ethernet types', pcap(frames + [ethernet(four)]), 7, [DATAGRAM], [reason])
    cases.left('another Ethernet type behind a tag', ethernet(four, 0x8847, (0x8100,)), 'other Ethernet type: 0x8847 (1)')
    frames = [ethernet(ipv4(udp(), 6)), ethernet(ipv4(udp(), 1)), ethernet(ipv4(udp(), 6)), ethernet(ipv6(udp(), 58), 0x86dd)]
    cases.file('IP protocols', pcap(frames), 4, [], [(4, 'other IP protocol: 6 (2), 1 (1), 58 (1)')])
    frames = [ethernet(ipv4(udp(port=port))) for port in (53, 6344, 6344, PORT, 53, 6344)]
    cases.file('other ports', pcap(frames), 6, [DATAGRAM], [(5, 'UDP to another port: 6344 (3), 53 (2)')])
    frames = [ethernet(ipv4(udp(port=port))) for port in range(1, 12) for _ in range(12 - port)]
    ports = ', '.join(f'{port} ({12 - port})' for port in range(1, 9)) + ', 3 others (6)'
    cases.file('program, 0 datagrams, many ports', pcap(frames), 66, [], [(66, f'UDP to another port: {ports}')])
    cases.file('no packets', pcap([]), 0, [])
    status, out, err = program(pcap([ethernet(ipv4(udp(port=6344))), ethernet(four)]), '--port', '6344')
    cases.expect('program, --port', (status, out) == (0, capture([DATAGRAM])) and 'left out 1: UDP to another port: 6343 (1)' in err)


def ipv4_heads(cases):
    cases.taken('IPv4 options', ethernet(ipv4(udp(), options=bytes(4))))
    cases.taken('IPv4 options, as many as there can be', ethernet(ipv4(udp(), options=bytes(40))))
    cases.taken('IPv4 not to be fragmented', ethernet(ipv4(udp(), fragment=0x4000)))
    fragments = [ethernet(ipv4(udp(), fragment=place)) for place in (0x2000, 0x2005, 0x0009)]
    cases.file('IPv4 fragments', pcap(fragments), 3, [], [(3, 'IP fragment: of protocol 17 (3)')])
    for words in range(5):
        cases.left(f'IPv4 head of {words} words', ethernet(ipv4(udp(), words=words)), 'IP length that does not fit')
    cases.left('IPv4 head of 0 words that ends', ethernet(ipv4(udp(), words=0))[:24], 'ends inside the IP head')
    cases.left('IPv4 head beyond the packet', ethernet(ipv4(udp(b'abcd'), words=15)), 'ends inside the IP head')
    for length, reason in ((0, 'IP length that does not fit'), (19, 'IP length that does not fit'), (20, 'ends inside the UDP head'),
                           (27, 'ends inside the UDP head'), (28, 'UDP length that does not fit'), (64, 'UDP length that does not fit'),
                           (66, 'IP length that does not fit')):
        cases.left(f'IPv4 length {length} of 65', ethernet(ipv4(udp(), length=length)), reason)
    cases.left('IPv4 length inside the options', ethernet(ipv4(udp(), options=bytes(4), length=23)), 'IP length that does not fit')
    cases.taken('a frame with padding', ethernet(ipv4(udp())) + bytes(9))


def ipv6_heads(cases):
    for kind in (0, 43, 60):
        cases.taken(f'IPv6 header {kind}', ethernet(ipv6(extension(17, udp()), kind), 0x86dd))
        cases.taken(f'IPv6 header {kind} of 24 octets', ethernet(ipv6(extension(17, udp(), 2), kind), 0x86dd))
    cases.taken('IPv6 authentication header', ethernet(ipv6(extension(17, udp(), 4, 4), 51), 0x86dd))
    chain = extension(43, extension(44, fragment6(60, extension(17, udp()), 0)), 1)
    cases.taken('IPv6 headers in a row', ethernet(ipv6(chain, 0), 0x86dd))
    cases.taken('IPv6 in one piece behind a fragment header', ethernet(ipv6(fragment6(17, udp(), 6), 44), 0x86dd))
    fragments = [ethernet(ipv6(fragment6(17, udp(), place), 44), 0x86dd) for place in (1, 0x29, 0x28)]
    fragments.append(ethernet(ipv6(fragment6(60, udp(), 8), 44), 0x86dd))
    cases.file('IPv6 fragments', pcap(fragments), 4, [], [(4, 'IP fragment: of protocol 17 (3), of protocol 60 (1)')])
    cases.left('IPv6 without a next header', ethernet(ipv6(udp(), 59), 0x86dd), 'other IP protocol: 59 (1)')
    cases.left('IPv6 header longer than the packet', ethernet(ipv6(bytes((17, 30)) + bytes(30), 0), 0x86dd), 'ends inside the IP head')
    cases.left('IPv6 header of fewer than 8 octets', ethernet(ipv6(bytes((17, 0)) + bytes(5), 0), 0x86dd), 'ends inside the IP head')
    cases.left('IPv6 fragment header of 4 octets', ethernet(ipv6(fragment6(17, b'', 0x29)[:4], 44), 0x86dd), 'ends inside the IP head')
    for length, reason in ((0, 'ends inside the UDP head'), (44, 'UDP length that does not fit'), (46, 'IP length that does not fit')):
        cases.left(f'IPv6 length {length} of 45', ethernet(ipv6(udp(), length=length), 0x86dd), reason)
    cases.taken('an IPv6 frame with padding', ethernet(ipv6(udp()), 0x86dd) + bytes(9))


def udp_lengths(cases):
    for length in (0, 7, 8 + len(DATAGRAM) + 1, 65535):
        cases.left(f'UDP length {length}', ethernet(ipv4(udp(length=length))), 'UDP length that does not fit')
    short = ethernet(ipv4(udp(length=8 + 5)))
    cases.file('UDP length shorter than the packet', pcap([short]), 1, [DATAGRAM[:5]])
    cases.file('an empty datagram', pcap([ethernet(ipv4(udp(b'')))]), 1, [b''])
    longest = [bytes(65507), bytes(65508)]
    frames = [ethernet(ipv6(udp(datagram)), 0x86dd) for datagram in longest]
    cases.file('datagrams of 65,507 and 65,508 octets', pcap(frames), 2, longest[:1], [(1, 'datagram over 65,507 octets')])


def in_order(left):
    return sorted(left, key=lambda line: (-line[0], line[1]))


def ends(cases):
    """A frame that ends at every length, of itself: none is taken, each is counted once."""
    for name, frame, six in (('IPv4', ethernet(ipv4(udp())), False), ('IPv6', ethernet(ipv6(udp()), 0x86dd), True)):
        beginnings = [frame[:kept] for kept in range(len(frame))]
        head = 40 if six else 20
        left = [(14, 'ends inside the link head'), (head, 'ends inside the IP head'), (len(frame) - 14 - head, 'IP length that does not fit')]
        cases.file(f'{name} that ends at every length', pcap(beginnings), len(frame), [], in_order(left))


def cuts(cases):
    """A frame cut by the packet file at every length: none is taken, each is counted once under the head that the cut falls into."""
    four = ipv4(udp())
    frames = (('IPv4', ethernet(ipv4(udp(), options=bytes(4)), tags=(0x8100,)), ETHERNET, (18, 24, 8)),
              ('IPv6', ethernet(ipv6(extension(17, udp()), 0), 0x86dd), ETHERNET, (14, 48, 8)),
              ('cooked', cooked(four), LINUX_COOKED, (16, 20, 8)), ('cooked 2', cooked2(four), LINUX_COOKED_2, (20, 20, 8)),
              ('loopback', struct.pack('<I', 2) + four, 0, (4, 20, 8)), ('raw', four, 101, (0, 20, 8)))
    for name, frame, link, heads in frames:
        beginnings = [frame[:kept] for kept in range(len(frame))]
        counts = [*heads, len(DATAGRAM)]
        places = ('inside the link head', 'inside the IP head', 'inside the UDP head', 'inside the datagram')
        left = in_order((count, f'cut short by the packet file {place}') for count, place in zip(counts, places) if count)
        lengths = [(kept, len(frame)) for kept in range(len(frame))]
        for times, order in (('microseconds', '<'), ('nanoseconds', '>')):
            cases.file(f'{name} cut at every length, {times}', pcap(beginnings, link, order, times, lengths), len(frame), [], left)
        blocks = [enhanced('>', beginning, whole=len(frame)) for beginning in beginnings]
        cases.file(f'{name} cut at every length, pcapng', section('>') + interface('>', link) + b''.join(blocks), len(frame), [], left)


def whole_or_not(cases):
    """Packets of which the file says that it keeps more, or fewer, octets than there were."""
    frame = ethernet(ipv4(udp()))
    more = [(len(frame), 0), (len(frame), len(frame) - 10), (len(frame), len(frame))]
    cases.file('more kept than there were', pcap([frame] * 3, lengths=more), 3, [DATAGRAM] * 3)
    cases.file('more kept than there were of a beginning', pcap([frame[:30]], lengths=[(30, 20)]), 1, [], [(1, 'ends inside the IP head')])
    padded = frame + bytes(6)
    cases.file('only padding cut', pcap([padded], lengths=[(len(padded), len(padded) + 12)]), 1, [DATAGRAM])
    cases.file('padding cut to none', pcap([frame], lengths=[(len(frame), len(frame) + 4)]), 1, [DATAGRAM])
    short = ethernet(ipv4(udp(), length=27))
    cases.file('ends by its IP length, cut later', pcap([short], lengths=[(len(short), len(short) + 4)]), 1, [], [(1, 'ends inside the UDP head')])
    wrong = ethernet(ipv4(udp(length=46)))
    cases.file('UDP beyond IP, cut later', pcap([wrong + b'x'], lengths=[(len(wrong) + 1, len(wrong) + 4)]), 1, [], [(1, 'UDP length that does not fit')])


def pcapng_files(cases):
    frame, six = ethernet(ipv4(udp())), ethernet(ipv6(udp()), 0x86dd)
    for order in '<>':
        start = section(order) + interface(order)
        cases.file(f'pcapng, order {order}', start + enhanced(order, frame) + enhanced(order, six), 2, [DATAGRAM] * 2)
        cases.file(f'pcapng, order {order}, simple', start + simple(order, frame), 1, [DATAGRAM])
        cases.file(f'pcapng, order {order}, obsolete', start + obsolete(order, frame), 1, [DATAGRAM])
        several = start + interface(order, 101) + enhanced(order, ipv4(udp()), 1) + enhanced(order, frame, 0) + obsolete(order, ipv4(udp()), 1)
        cases.file(f'pcapng, order {order}, two interfaces', several, 3, [DATAGRAM] * 3)
        undeclared = start + enhanced(order, frame, 1) + obsolete(order, frame, 2) + enhanced(order, frame, 1)
        cases.file(f'pcapng, order {order}, interfaces not declared', undeclared, 3, [], [(3, 'interface not declared: 1 (2), 2 (1)')])
        kept = section(order) + interface(order, longest=63) + simple(order, frame[:63], len(frame)) + simple(order, frame[:30])
        left = [(1, 'cut short by the packet file inside the datagram'), (1, 'ends inside the IP head')]
        cases.file(f'pcapng, order {order}, simple and cut', kept, 2, [], left)
    cases.file('pcapng, simple without an interface', section('<') + simple('<', frame), 1, [], [(1, 'interface not declared: 0 (1)')])
    sections = section('<') + interface('<') + enhanced('<', frame) + section('>') + enhanced('>', frame) + interface('>', 101) + enhanced('>', ipv4(udp()))
    cases.file('pcapng, a section of the other order', sections, 3, [DATAGRAM] * 2, [(1, 'interface not declared: 0 (1)')])


def pcapng_blocks(cases):
    """Blocks that carry no packets, of unknown types, and too short ones."""
    frame, start = ethernet(ipv4(udp())), section('<') + interface('<')
    silent = b''.join(block('<', kind, bytes(8)) for kind in (4, 5, 9, 10))
    cases.file('pcapng, blocks without packets', start + silent + enhanced('<', frame), 1, [DATAGRAM])
    other = b''.join(block('<', kind, bytes(8)) for kind in (0xbad, 0x40000bad, 77, 77))
    line = 'blocks passed over, by type: 0x0000004d (2), 0x00000bad (1), 0x40000bad (1)'
    cases.file('pcapng, blocks of other types', start + other + enhanced('<', frame), 1, [DATAGRAM], more=[line])
    short = block('<', 6, bytes(16)) + block('<', 2, bytes(16)) + block('<', 3, b'')
    cases.file('pcapng, blocks too short', start + short + enhanced('<', frame), 4, [DATAGRAM], [(3, 'block too short for a packet')])
    beyond = enhanced('<', frame, kept=len(frame) + 4) + simple('<', frame, len(frame) + 4)
    cases.file('pcapng, packets longer than their blocks', start + beyond, 2, [], [(2, 'packet longer than its block')])


def malformed(cases):
    """What came before is written, and the place is told, with a status that is not 0."""
    frame = ethernet(ipv4(udp()))
    for order in '<>':
        one = pcap([frame], order=order)
        for more in (1, 15, 16, 16 + len(frame) - 1):
            data = one + pcap([frame], order=order)[24:][:more]
            cases.file(f'pcap, order {order}, with {more} octets of a packet', data, 1, [DATAGRAM], wrong=f'it ends inside what begins at octet {len(one)}')
    cases.file('pcap, cut in its head', pcap([])[:23], 0, [], wrong='it ends inside what begins at octet 0')
    start = section('<') + interface('<') + enhanced('<', frame)
    after = enhanced('<', frame)
    for more in (1, 8, 12, len(after) - 1):
        cases.file(f'pcapng, with {more} octets of a block', start + after[:more], 1, [DATAGRAM], wrong=f'it ends inside what begins at octet {len(start)}')
    for length in (0, 8, 14):
        data = start + struct.pack('<III', 6, length, 0) + bytes(8)
        cases.file(f'pcapng, a block of {length} octets', data, 1, [DATAGRAM], wrong=f'the block at octet {len(start)} has a wrong length ({length})')
    wrong = f'the block at octet {len(start)} ends with another length than it begins with'
    cases.file('program, pcapng, two lengths', start + after[:-4] + bytes(4), 1, [DATAGRAM], wrong=wrong)
    wrong = f'the section at octet {len(start)} has no byte order'
    cases.file('pcapng, no byte order', start + block('<', 0x0a0d0d0a, bytes(16)), 1, [DATAGRAM], wrong=wrong)
    wrong = f'the block at octet {len(start)} is too short for an interface'
    cases.file('pcapng, half an interface', start + block('<', 1, bytes(4)) + after, 1, [DATAGRAM], wrong=wrong)


def wrong_use(cases):
    """Wrong arguments, and files that are none, are told, with a status that is not 0."""
    for port in ('0', '65536', '-1', 'sflow', '6343.0', ''):
        status, out, err = called(cases.module, pcap([]), f'--port={port}')
        cases.expect(f'port {port}', (status, out) == (2, b'') and f'{port} is no UDP port (1 to 65535)' in err)
    for port in ('1', '65535'):
        cases.expect(f'port {port}', called(cases.module, pcap([]), f'--port={port}')[0] == 0)
    missing = os.path.join(HERE, 'not-there.pcap')
    done = subprocess.run([sys.executable, os.path.join(HERE, 'from_pcap'), missing], capture_output=True, timeout=PATIENCE)
    cases.expect('program, a file that is not there', (done.returncode, done.stderr.decode()) == (1, f'from_pcap: {missing}: No such file or directory\n'))
    for data in (b'', b'no packets', b'\xa1\xb2'):
        cases.expect(f'program, no packet file: {data}', program(data) == (1, b'', 'from_pcap: standard input: it is neither a pcap nor a pcapng file\n'))


def outputs(cases):
    """An output that fails, or is a terminal, is told."""
    command = [sys.executable, os.path.join(HERE, 'from_pcap'), '-']
    with open('/dev/full', 'wb') as full:
        done = subprocess.run(command, input=pcap([ethernet(ipv4(udp()))]), stdout=full, stderr=subprocess.PIPE, timeout=PATIENCE)
    cases.expect('program, a full output', (done.returncode, done.stderr) == (1, b'from_pcap: reading or writing failed: No space left on device\n'))
    ours, theirs = pty.openpty()
    done = subprocess.run(command, input=pcap([]), stdout=theirs, stderr=subprocess.PIPE, timeout=PATIENCE)
    os.close(ours)
    os.close(theirs)
    cases.expect('program, a terminal as output', done.returncode == 2 and b'which is a terminal' in done.stderr)


def samples(cases):
    """Packet files of a sample capture's datagrams give the capture again."""
    with open(os.path.join(HERE, 'refusals.capture'), 'rb') as file:
        data = file.read()
    datagrams, at = [], 0
    while at < len(data):
        size = int.from_bytes(data[at + 2:at + 4], 'big')
        datagrams.append(data[at + 4:at + 4 + size])
        at += 4 + size
    frames = []
    for number, datagram in enumerate(datagrams):
        six, tags = number % 2 == 1, (0x8100,) if number % 3 == 1 else ()
        frames.append(ethernet((ipv6 if six else ipv4)(udp(datagram)), 0x86dd if six else 0x0800, tags))
    assert capture(datagrams) == data
    cases.file('program, a sample capture, pcap', pcap(frames), len(frames), datagrams)
    blocks = b''.join(enhanced('>', frame) for frame in frames)
    cases.file('program, a sample capture, pcapng', section('>') + interface('>') + blocks, len(frames), datagrams)


def run(tell):
    """Runs all cases and gives how many there were; `tell` is given each one's name and whether it was good."""
    cases = Cases(tell)
    for part in (samples, links, loopbacks, others, ipv4_heads, ipv6_heads, udp_lengths, ends, cuts, whole_or_not, pcapng_files, pcapng_blocks, malformed,
                 wrong_use, outputs):
        part(cases)
    return cases.count


def main():
    failed = []
    count = run(lambda name, good: good or failed.append(name))
    for name in failed:
        print(f'FAILED: {name}')
    print(f'{count} cases, {len(failed)} failures')
    sys.exit(1 if failed else 0)


if __name__ == '__main__':
    main()
