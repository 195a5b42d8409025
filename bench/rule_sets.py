"""Three rule sets of 255 rules that the check accepts, and a flow sample for them (an Ethernet header of 128 octets with IPv4 and TCP).

  straight     254 Gotos to the next rule, every third with a test that passes, the others with one that fails; then Count; 255 rules come to
  subroutines  five parts of 51 rules, the main part and four levels of subroutines, each part calling the next one six times; 79,305 rules come to
  returns      127 Gosubs to one subroutine of 126 Returns, so that the check looks at each Return with each Gosub; 128 rules come to

In all of them the last rule tests Null, so that its value is free, and the key is zero at the end.
"""
import struct

COUNT, RETURN, GOSUB, GOTO, PUSH_PKT_TO, POP_TO = 3, 5, 6, 10, 14, 16
NULL = (0, 0, 0)
# attribute, mask, value: what the sample below has, and what it has not
PASSES = [(4, 0xffffffff, 1), (11, 0xff, 6), (9, 0xff000000, 0x0a000000), (22, 0xffff, 443), (8, 0xff, 1)]
FAILS = [(12, 0xffff, 53), (19, 0xffffff00, 0xc0a80100), (21, 0xff, 17), (14, 0xffffffff, 9), (18, 0xff, 2)]
COME_TO = {'straight': 255, 'subroutines': 51 * (1 + 6 + 36 + 216 + 1296), 'returns': 128}


def words(*values):
    return struct.pack('>%dI' % len(values), *values)


def rule(test, opcode, parameter=0, home=0, depth=0, held=0):
    attribute, mask, value = test
    return bytes([0x52, 0x75, attribute, opcode]) + words(mask, value) + bytes([parameter, home, depth, held])


def straight():
    tests = [(PASSES if i % 3 == 0 else FAILS)[i // 3 % 5] for i in range(254)]
    return [rule(test, GOTO, i + 2) for i, test in enumerate(tests)] + [rule(NULL, COUNT)]


def part(level):
    """Rules 51 * level + 1 and on. A push and a PopTo, six calls of the next part with the rules between them; at the end a Return, Count in the main part."""
    first = 51 * level + 1
    home = first if level else 0
    made = []
    for i in range(50):
        following = first + i + 1
        if i == 3:
            made.append(rule(NULL, PUSH_PKT_TO, following, home, level))
        elif i == 4:
            made.append(rule(NULL, POP_TO, following, home, level, 1))
        elif i % 8 == 7 and level < 4:
            made.append(rule(NULL, GOSUB, first + 51, home, level))
        else:
            made.append(rule((PASSES if i % 3 == 0 else FAILS)[i // 3 % 5], GOTO, following, home, level))
    made.append(rule(NULL, RETURN, 1, home, level) if level else rule(NULL, COUNT))
    return made


def subroutines():
    return [each for level in range(5) for each in part(level)]


def returns():
    gosubs = [rule(PASSES[i % 5], GOSUB, 129) for i in range(127)]
    inside = [rule(FAILS[i % 5], RETURN, 1, 129, 1) for i in range(126)]
    return gosubs + [rule(NULL, COUNT)] + inside + [rule(NULL, COUNT, 0, 129, 1)]


RULE_SETS = {'straight': straight, 'subroutines': subroutines, 'returns': returns}
ETHERNET = bytes([0, 1, 2, 3, 4, 5, 0, 1, 2, 3, 4, 6, 8, 0])
IPV4 = bytes([0x45, 0, 5, 0xdc, 0, 1, 0, 0, 64, 6, 0, 0, 10, 0, 0, 7, 10, 0, 0, 9])
TCP = bytes([0xc0, 0, 443 // 256, 443 % 256])
HEADER = (ETHERNET + IPV4 + TCP).ljust(128, b'\x5a')
SAMPLE = words(1, 9, 3, 512, 4096, 0, 1, 2) + words(1, 1, 1518, 128) + HEADER + words(1) + words(1, 10, 0, 20, 0)


def octets(name):
    """The octets of a rule set."""
    return b''.join(RULE_SETS[name]())
