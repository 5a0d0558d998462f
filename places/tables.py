"""The layouts of the twelve payloads as document 000's tables have them, and one rich message of each.

Made from document 000 (SPARTN 2.0.2: tables 6.2 to 6.28), document 01 ("Codes" and "Payloads"), document 02
(requests 2 and 6) and how the project reads them. Nothing is taken from the crates or from the second
program, so that `tests/places` compares two readings of the same tables. Prints the listing, whose stored
copy is places/listing.txt.
"""
import collections

# Table 6.2: the bits of a field and the highest code of its range (Range over Resolution); then a special
# value above the range, if it has one. Document 01, "Codes", decides where the table leaves a choice: SF041
# and SF054 end at 2, the reserved bit is one bit. An ephemeris type ends at the last one with a meaning:
# document 02, request 6, refuses those that the table marks TBD. The codes above the range that are not
# special are those that the field refuses; none is refused below it, since every range begins at code 0.
FIELDS = {
    5: (9, 511),  # Solution issue of update (SIOU)
    8: (1, 1),  # Yaw present flag
    9: (1, 1),  # Satellite reference datum
    10: (1, 1),  # End of OCB set (EOS)
    13: (1, 1),  # Do not use (DNU)
    14: (3, 7),  # OCB present flags
    15: (3, 7),  # Continuity indicator
    16: (2, 0),  # GPS ephemeris type: 1 to 3 TBD
    17: (2, 0),  # GLO ephemeris type: 1 to 3 TBD
    18: (8, 255),  # GPS IODE
    19: (7, 127),  # GLO IODE
    20: (14, 16382),  # Satellite corrections: ±16.382 m by 0.002 m
    21: (6, 59, 63),  # Satellite yaw: 0 to 354° by 6°, 0x3F invalid
    22: (3, 7),  # IODE continuity
    23: (1, 1),  # Fix flag
    24: (3, 7),  # User range error (URE)
    29: (11, 2046),  # Code bias correction: ±20.46 m by 0.02 m
    30: (5, 31),  # Area Count: 1 to 32
    31: (8, 255),  # Area ID
    32: (11, 1800),  # Area reference latitude: ±90.00 north degrees by 0.1 degrees
    33: (12, 3600),  # Area reference longitude: ±180.00 east degrees by 0.1 degrees
    34: (3, 7),  # Area latitude grid node count: 1 to 8
    35: (3, 7),  # Area longitude grid node count: 1 to 8
    36: (5, 31),  # Area latitude grid node spacing: 0.1 to 3.2 degrees by 0.1 degrees
    37: (5, 31),  # Area longitude grid node spacing: 0.1 to 3.2 degrees by 0.1 degrees
    39: (7, 127),  # Number of grid points present
    40: (2, 2),  # Poly/Grid block present indicator
    41: (3, 2),  # Troposphere equation type: 0 to 2
    42: (3, 7),  # Troposphere quality
    43: (8, 254),  # Area average vertical hydrostatic delay: ±0.508 m by 0.004 m
    44: (1, 1),  # Troposphere polynomial coefficient size indicator
    45: (7, 126),  # Small troposphere coefficient T00: ±0.252 m by 0.004 m
    46: (7, 126),  # Small troposphere coefficient T10/T01: ±0.063 m/degree by 0.001 m/degree
    47: (9, 510),  # Small troposphere coefficient T11: ±0.0510 m/degree^2 by 0.0002 m/degree^2
    48: (9, 510),  # Large troposphere coefficient T00: ±1.020 m by 0.004 m
    49: (9, 510),  # Large troposphere coefficient T10/T01: ±0.255 m/degree by 0.001 m/degree
    50: (11, 2046),  # Large troposphere coefficient T11: ±0.2046 m/degree^2 by 0.0002 m/degree^2
    51: (1, 1),  # Troposphere residual field size
    52: (6, 62, 63),  # Small troposphere residual zenith delay: ±0.124 m by 0.004 m, 0x3F invalid
    53: (8, 254, 255),  # Large troposphere residual zenith delay: ±0.508 m by 0.004 m, 0xFF invalid
    54: (3, 2),  # Ionosphere equation type: 0 to 2
    55: (4, 15),  # Ionosphere quality
    56: (1, 1),  # Ionosphere polynomial coefficient size indicator
    57: (12, 4094),  # Small ionosphere coefficient C00: ±81.88 TECU by 0.04 TECU
    58: (12, 4094),  # Small ionosphere coefficient C10/C01: ±16.376 TECU/degree by 0.008 TECU/degree
    59: (13, 8190),  # Small ionosphere coefficient C11: ±8.190 TECU/degree^2 by 0.002 TECU/degree^2
    60: (14, 16382),  # Large ionosphere coefficient C00: ±327.64 TECU by 0.04 TECU
    61: (14, 16382),  # Large ionosphere coefficient C10/C01: ±65.528 TECU/degree by 0.008 TECU/degree
    62: (15, 32766),  # Large ionosphere coefficient C11: ±32.766 TECU/degree^2 by 0.002 TECU/degree^2
    63: (2, 3),  # Ionosphere residual field size
    64: (4, 14, 15),  # Small ionosphere residual slant delay: ±0.28 TECU by 0.04 TECU, 0xF invalid
    65: (7, 126, 127),  # Medium ionosphere residual slant delay: ±2.52 TECU by 0.04 TECU, 0x7F invalid
    66: (10, 1022, 1023),  # Large ionosphere residual slant delay: ±20.44 TECU by 0.04 TECU, 0x3FF invalid
    67: (14, 16382, 16383),  # Extra-large ionosphere residual: ±327.64 TECU by 0.04 TECU, 0x3FFF invalid
    68: (4, 15),  # Area Issue of Update (AIOU)
    69: (1, 1),  # Reserved
    70: (2, 3),  # Ionosphere shell height
    71: (2, 3),  # BPAC area count: 1 to 4
    72: (2, 3),  # BPAC area ID
    73: (8, 170),  # BPAC area reference latitude: ±85.00 north degrees by 1.0 degrees
    74: (9, 360),  # BPAC area reference longitude: ±180.00 east degrees by 1.0 degrees
    75: (4, 15),  # BPAC area latitude grid node count: 1 to 16
    76: (4, 15),  # BPAC area longitude grid node count: 1 to 16
    77: (2, 3),  # BPAC area latitude grid node spacing
    78: (2, 3),  # BPAC area longitude grid node spacing
    80: (12, 4094),  # Area average VTEC: ±511.75 TECU by 0.25 TECU
    81: (1, 1),  # VTEC size indicator
    82: (7, 126, 127),  # Small VTEC residual: ±15.75 TECU by 0.25 TECU, 0x7F invalid
    83: (11, 2046, 2047),  # Large VTEC residual: ±255.75 TECU by 0.25 TECU, 0x7FF invalid
    96: (3, 2),  # Galileo ephemeris type: 3 to 7 TBD
    97: (4, 5),  # BDS ephemeris type: 6 to 15 TBD
    98: (3, 2),  # QZSS ephemeris type: 3 to 7 TBD
    99: (10, 1023),  # Galileo IODnav
    100: (8, 255),  # BDS IODE/IODC
    101: (8, 255),  # QZSS IODE
}

# Table 6.2: the bits of a mask behind its size, by the size's code: two bits for satellites, one for biases.
SATELLITE_MASKS = {
    11: (32, 44, 56, 64), 12: (24, 36, 48, 63), 93: (36, 45, 54, 64), 94: (37, 46, 55, 64),
    95: (10, 40, 48, 64),
}
BIAS_MASKS = {
    25: (6, 11), 26: (5, 9), 102: (8, 15), 103: (8, 15), 104: (6, 11),
    27: (6, 11), 28: (5, 9), 105: (8, 15), 106: (8, 15), 107: (6, 11),
}

# The fields marked with ** in tables 6.3 to 6.11 and 6.19, by subtype.
Constellation = collections.namedtuple("Constellation", "name ephemeris satellites iode phases codes")
CONSTELLATIONS = (
    Constellation("GPS", 16, 11, 18, 25, 27),
    Constellation("GLONASS", 17, 12, 19, 26, 28),
    Constellation("Galileo", 96, 93, 99, 102, 105),
    Constellation("BeiDou", 97, 94, 100, 103, 106),
    Constellation("QZSS", 98, 95, 101, 104, 107),
)


# The layouts. `take` is handed each field as it is reached and gives its code, by which the layout goes on:
# take(number) for a field of table 6.2, take(number, bits) for a part of a mask.


def ones(bits):
    return bin(bits).count("1")


def mask(take, number):
    """A mask of satellites or biases: its size, then so many bits. Gives how many of them are set."""
    sizes = SATELLITE_MASKS.get(number) or BIAS_MASKS[number]
    size = take(number, 2 if number in SATELLITE_MASKS else 1)
    return ones(take(number, sizes[size]))


def ocb(take, c):
    """Table 6.3: SM 0-0 to SM 0-4."""
    take(5)
    take(10)
    take(69)
    yaw = take(8)
    take(9)
    take(c.ephemeris)
    for _ in range(mask(take, c.satellites)):
        satellite(take, c, yaw)


def satellite(take, c, yaw):
    """Table 6.4; nothing behind SF013 where it is set, by its row of table 6.2."""
    if take(13) == 1:
        return
    present = take(14)
    take(15)
    if present & 4:  # table 6.5, orbit
        take(c.iode)
        take(20)
        take(20)
        take(20)
        if yaw == 1:
            take(21)
    if present & 2:  # table 6.6, clock
        take(22)
        take(20)
        take(24)
    if present & 1:  # tables 6.7 to 6.11, bias
        for _ in range(mask(take, c.phases)):  # table 6.12
            take(23)
            take(15)
            take(20)
        for _ in range(mask(take, c.codes)):
            take(29)


def hpac(take, c):
    """Tables 6.13 and 6.14: SM 1-0 to SM 1-4."""
    take(5)
    take(68)
    take(69)
    for _ in range(take(30) + 1):
        take(31)  # table 6.15
        nodes = take(39)
        tropo = take(40)
        iono = take(40)
        if tropo > 0:
            troposphere(take, nodes, tropo)
        if iono > 0:
            ionosphere(take, c, nodes, iono)


def troposphere(take, nodes, blocks):
    """Table 6.16, with tables 6.17 (small coefficients) and 6.18 (large ones)."""
    model = take(41)
    take(42)
    take(43)
    coefficients(take, model, (48, 49, 50) if take(44) == 1 else (45, 46, 47))
    if blocks == 2:
        residual = (52, 53)[take(51)]
        for _ in range(nodes):
            take(residual)


def ionosphere(take, c, nodes, blocks):
    """Tables 6.19 and 6.20, with tables 6.21 (small coefficients) and 6.22 (large ones)."""
    model = take(54)
    for _ in range(mask(take, c.satellites)):
        take(55)
        coefficients(take, model, (60, 61, 62) if take(56) == 1 else (57, 58, 59))
        if blocks == 2:
            residual = (64, 65, 66, 67)[take(63)]
            for _ in range(nodes):
                take(residual)


def coefficients(take, model, numbers):
    """Tables 6.17, 6.18, 6.21, 6.22: one coefficient in models 0 to 2, two more in 1 and 2, a fourth in 2."""
    take(numbers[0])
    if model >= 1:
        take(numbers[1])
        take(numbers[1])
    if model == 2:
        take(numbers[2])


def gad(take, _):
    """Tables 6.23 and 6.24: SM 2-0."""
    take(5)
    take(68)
    take(69)
    for _ in range(take(30) + 1):
        for number in (31, 32, 33, 34, 35, 36, 37):
            take(number)


def bpac(take, _):
    """Tables 6.25 and 6.26: SM 3-0."""
    take(5)
    take(69)
    take(70)
    for _ in range(take(71) + 1):
        take(72)  # table 6.27
        take(73)
        take(74)
        nodes = take(75) + 1
        nodes *= take(76) + 1
        take(77)
        take(78)
        take(80)
        # SF079, a bit a node, in groups of 64 from the left (document 01, "Payloads")
        present = sum([ones(take(79, min(64, nodes - at))) for at in range(0, nodes, 64)])
        for _ in range(present):  # table 6.28
            take(55)
            take((82, 83)[take(81)])


# What is refused at a field: answer numbers of document 01.
MASK_EMPTY, FIELD = 7, 8

# A field of a message: its number, the bit where it begins, its sheet entry, its bits, its code, and the
# codes that would be refused there, each with its answer number.
Field = collections.namedtuple("Field", "number bit entry bits code refused")


def refused_codes(number):
    """The first and the last code that a field of table 6.2 refuses, if there are any."""
    bits, highest, *special = FIELDS[number]
    refused = [code for code in range(highest + 1, 1 << bits) if code not in special]
    return [(code, FIELD) for code in sorted({*refused[:1], *refused[-1:]})]


class Message:
    """A message: its fields, made by a layout out of the codes of a plan.

    The plan has, in reading order, the number and the code of each field that decides on what follows it, and
    of the ephemeris type. The other fields get codes by turns: 0, the highest of the range, the special value
    or the middle, and two that wander over the range.
    """

    def __init__(self, kind, subtype, name, layout, plan):
        self.kind, self.subtype, self.name = kind, subtype, name
        self.fields, self.plan = [], list(plan)
        self.planned = {number for number, _ in self.plan}
        self.turns, self.wander = collections.Counter(), 16 * kind + subtype
        layout(self.take, CONSTELLATIONS[subtype])
        assert not self.plan, self.title()
        assert self.length() <= 1023, self.title()

    def take(self, number, bits=None):
        if number in self.planned:
            planned, code = self.plan.pop(0)
            assert planned == number, (self.title(), len(self.fields), planned, number)
        else:
            code = self.turn(number)
        refused = []
        if bits is None:
            bits = FIELDS[number][0]
            refused = refused_codes(number)
        elif number in SATELLITE_MASKS and bits > 2:
            refused = [(0, MASK_EMPTY)]
        assert code < 1 << bits and code not in [no for no, _ in refused], (self.title(), number, code)
        self.fields.append(Field(number, self.bits(), len(self.fields), bits, code, refused))
        return code

    def turn(self, number):
        _, highest, *special = FIELDS[number]
        self.wander = (self.wander * 1103515245 + 12345) % (1 << 31)
        any_code = (self.wander >> 8) % (highest + 1)
        turn = (self.turns[number] + self.subtype) % 5
        self.turns[number] += 1
        return (0, highest, special[0] if special else highest // 2, any_code, any_code)[turn]

    def bits(self):
        return self.fields[-1].bit + self.fields[-1].bits if self.fields else 0

    def length(self):
        """In bytes."""
        return (self.bits() + 7) // 8

    def sheet(self):
        return [field.code for field in self.fields]

    def payload(self):
        """The bits from the left, the last byte filled with zeros."""
        whole = 0
        for field in self.fields:
            whole = whole << field.bits | field.code
        return (whole << 8 * self.length() - self.bits()).to_bytes(self.length(), "big")

    def title(self):
        return f"{self.kind}-{self.subtype} {self.name}"

    def listing(self):
        """A heading, then the fields in reading order: number, bit, entry."""
        yield f"{self.title()}: {len(self.fields)} fields, {self.bits()} bits"
        for field in self.fields:
            yield f"SF{field.number:03} {field.bit} {field.entry}"


# The plans.


def spread(count, bits):
    """A mask with so many bits set: the first and the last one, the others evenly between them."""
    return sum({1 << bits - 1 - (at * (bits - 1) // max(1, count - 1)) for at in range(count)})


OUT_OF_USE = None
# The satellites of an OCB message: out of use, or SF014 with, for a bias block, size code and share of set
# bits of the phase bias mask and of the code bias mask: none, one, half or all of them.
SATELLITES = (
    OUT_OF_USE, (0,), (4,), (2,), (1, 0, "none", 0, "none"), (6,), OUT_OF_USE, OUT_OF_USE,
    (5, 0, "all", 1, "half"), (3, 1, "all", 0, "one"), (7, 1, "half", 1, "all"), OUT_OF_USE,
    (7, 0, "half", 0, "all"), (1, 1, "none", 1, "one"), (7, 1, "one", 0, "none"), (5, 0, "one", 1, "none"),
    (0,), OUT_OF_USE, (7, 0, "none", 0, "half"), (6,),
)


def share(word, bits):
    return spread({"none": 0, "one": 1, "half": (bits + 1) // 2, "all": bits}[word], bits)


def ocb_plan(c, yaw, ephemeris, size, count):
    """SF008, ephemeris type, size code of the satellite mask, and how many satellites: those that are not on
    the list are out of use.
    """
    yield 8, yaw
    yield c.ephemeris, ephemeris
    yield c.satellites, size
    yield c.satellites, spread(count, SATELLITE_MASKS[c.satellites][size])
    for satellite in SATELLITES[:9] + (OUT_OF_USE,) * (count - len(SATELLITES)) + SATELLITES[9:]:
        if satellite is OUT_OF_USE:
            yield 13, 1
            continue
        yield 13, 0
        yield 14, satellite[0]
        if satellite[0] & 1:
            for number, at in (c.phases, 1), (c.codes, 3):
                yield number, satellite[at]
                yield number, share(satellite[at + 1], BIAS_MASKS[number][satellite[at]])


EVERY = [(size, residual) for size in range(2) for residual in range(4)]
# The areas of an HPAC message: SF039; of the troposphere SF041, SF044 and, with a grid, SF051; of the
# ionosphere SF054, by how much the mask's size code goes on from the message's first one, and for each
# satellite SF056 and, with a grid, SF063. There is every pair of the two SF040, every model with both sizes
# of coefficients, every size of residuals, grids without nodes, and the four sizes of the mask.
AREAS = (
    (127, (), ()),
    (0, (0, 0), ()),
    (5, (1, 1), (0, 0, [(0,), (1,)])),
    (3, (2, 0, 0), ()),
    (2, (), (1, 1, [(0,), (1,), (0,)])),
    (2, (0, 1, 1), (2, 2, EVERY)),
    (1, (1, 0, 0), (0, 3, EVERY)),
    (3, (2, 1), (1, 0, EVERY)),
    (0, (0, 0, 1), (2, 1, [(0, 0), (1, 3)])),
    (4, (), (1, 2, [(1, 2)])),
    (7, (2, 1, 1), (2, 3, [(1,), (0,)])),
    (2, (1, 1, 0), (0, 0, [(0, 1), (1, 2), (0, 3)])),
)


def hpac_plan(c, first, more):
    """The first size code of a mask, and areas that come behind the list."""
    areas = AREAS + more
    yield 30, len(areas) - 1
    for nodes, tropo, iono in areas:
        yield 39, nodes
        yield 40, (0, 0, 1, 2)[len(tropo)]
        yield 40, len(iono[2][0]) if iono else 0
        yield from zip((41, 44, 51), tropo)
        if iono:
            model, on, satellites = iono
            size = (first + on) % 4
            yield 54, model
            yield c.satellites, size
            yield c.satellites, spread(len(satellites), SATELLITE_MASKS[c.satellites][size])
            for satellite in satellites:
                yield from zip((56, 63), satellite)


# The areas of a BPAC message: SF075, SF076, and the groups of SF079, which have 64 bits but for the last one.
BPAC_AREAS = (
    (12, 4, (0x8000000000000001, 1)),  # 13 x 5 nodes: 64 bits and 1
    (8, 6, (0x4000000001000001,)),  # 9 x 7 nodes: 63 bits
    (0, 0, (0,)),  # one node, which is not present
    (15, 15, (0x8000000100010101, 0, (1 << 64) - 1, 0x7000000000000001)),  # 256 nodes: four times 64 bits
)


def bpac_plan():
    yield 71, len(BPAC_AREAS) - 1
    for rows, columns, groups in BPAC_AREAS:
        yield 75, rows
        yield 76, columns
        for group in groups:
            yield 79, group
        for at in range(sum(map(ones, groups))):
            yield 81, at % 3 % 2


def messages():
    """The twelve, in the order of table 6.1."""
    # GPS's message has all of the mask's 64 satellites, GLONASS's no yaw; each has the last type with a meaning
    chosen = ((1, 0, 3, 64), (0, 0, 3, 22), (1, 2, 0, 36), (1, 5, 1, 23), (1, 2, 2, 24))
    for subtype, c in enumerate(CONSTELLATIONS):
        yield Message(0, subtype, c.name + " OCB", ocb, ocb_plan(c, *chosen[subtype]))
    # 127 nodes and a message of 1,023 bytes without fill; then all satellites of masks of 63, 64 and 10 bits
    more = (
        ((127, (1, 0, 1), (0, 0, [(0, 3), (1, 1), (0, 0)])), (71, (2, 0, 1), ())),
        ((64, (0, 1, 0), (2, 3, [(0,)] * 63)),),
        ((127, (2, 0, 0), ()),),
        ((0, (), (0, 0, [(1,)] * 64)),),
        ((9, (0, 0, 0), (1, 0, [(0, 2)] * 10)),),
    )
    first = (0, 0, 1, 3, 0)
    for subtype, c in enumerate(CONSTELLATIONS):
        yield Message(1, subtype, c.name + " HPAC", hpac, hpac_plan(c, first[subtype], more[subtype]))
    yield Message(2, 0, "GAD", gad, [(30, 31)])
    yield Message(3, 0, "BPAC", bpac, bpac_plan())


if __name__ == "__main__":
    for message in messages():
        print(*message.listing(), sep="\n")
