"""The benchmarks' inputs, each in a file of a folder:

  counters, flows          datagrams: 8 Ethernet counter samples (1,304 octets); 7 flow samples with a header of 128 octets and a switch entry each
                           (1,424 octets)
  source, sources          1 source and 64 sources of flow samples, six words each: the agent's type and four words, the source id
  straight, subroutines,   rule sets of rule_sets.py: a word with the set's length, the set, a flow sample
  returns
"""
import os

import rule_sets
from rule_sets import words

HEAD = words(4, 1) + bytes([10, 0, 0, 7]) + words(1, 1000)
COUNTERS = words(2, 5, 3, 20, 2) + bytes(i % 251 for i in range(140))
FLOW = words(1, 9, 3, 512, 4096, 0, 1, 2) + words(1, 1, 1518, 128) + bytes(i % 251 for i in range(128)) + words(1) + words(1, 10, 0, 20, 0)


def datagram(samples):
    return HEAD + words(len(samples)) + b''.join(samples)


def sources(count):
    """Sources of four agents in turn."""
    return b''.join(words(1, 0x0a000007 + i % 4, 0, 0, 0, 3 + i // 4) for i in range(count))


def rule_set(name):
    octets = rule_sets.octets(name)
    return words(len(octets)) + octets + rule_sets.SAMPLE


def contents():
    made = {'counters': datagram([COUNTERS] * 8), 'flows': datagram([FLOW] * 7), 'source': sources(1), 'sources': sources(64)}
    made.update((name, rule_set(name)) for name in rule_sets.RULE_SETS)
    return made


def write(folder):
    """Writes all of them; gives the path of each."""
    paths = {}
    for name, octets in contents().items():
        paths[name] = os.path.join(folder, name)
        with open(paths[name], 'wb') as out:
            out.write(octets)
    return paths
