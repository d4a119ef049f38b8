#!/usr/bin/env python3
"""Makes the stored run of the format probe: lines for it, and the answers that they are to get.

    make.py STDIN STDOUT        writes both files, as crates/format_probe/stdin and stdout

No answer comes from the program. Each is taken from a public tool or library (hashlib's BLAKE2b, which agrees with
`b2sum`; base64's base 32; the package python3-cbor2 for DAG-CBOR; the package ipfs-cid for a CID of version 0 and 1),
from a public example (RFC 7693, appendix A; RFC 4648, section 10), or written here by hand from docs/formats.md, with the
fault and its place.
"""
import base64
import hashlib
import subprocess
import sys
import tempfile

import cbor2

CASES = []


def case(line, answer):
    CASES.append((line, answer))


def hexed(data):
    return data.hex() or "-"


def blake(length, data):
    return hashlib.blake2b(data, digest_size=length).digest()


def base32(data):
    return base64.b32encode(data).decode().lower().rstrip("=")


def varint(number):
    groups = []
    while number >= 128:
        groups.append(128 | number % 128)
        number //= 128
    return bytes(groups + [number])


def cid_of(codec, data):
    return b"\x01" + varint(codec) + varint(0xB220) + b"\x20" + blake(32, data)


def sha_cid_of(codec, data):
    return b"\x01" + varint(codec) + b"\x12\x20" + hashlib.sha256(data).digest()


# ---- numbers of varying length

def varints():
    case("varint a0e402", "ok 45600 3")
    case("varint 80", "refused Cut")
    case("varint -", "refused Cut")
    case("varint 8000", "refused NotShortest")
    case("varint " + "ff" * 9, "refused TooLong")
    case("varint " + "ff" * 8 + "00", "refused NotShortest")
    case("varint " + "ff" * 8, "refused Cut")
    case("varint " + "ff" * 8 + "7f", f"ok {2 ** 63 - 1} 9")
    case("varint 00ff", "ok 0 1")
    case("varint " + "80" * 9 + "01", "refused TooLong")
    for number in (0, 1, 127, 128, 16383, 16384, 45600, 2 ** 32, 2 ** 56 - 1, 2 ** 63 - 1):
        case(f"varintof {number}", varint(number).hex())
        case(f"varint {varint(number).hex()}55", f"ok {number} {len(varint(number))}")
    case(f"varintof {2 ** 63}", "bad line")


# ---- amounts

def amounts():
    greatest = 2 * 10 ** 27
    for number in (0, 1, 10, 255, 256, 10 ** 18, greatest):
        size = (number.bit_length() + 7) // 8
        spelled = b"\x00" + number.to_bytes(size, "big") if number else b""
        case(f"amount {hexed(spelled)}", f"ok {number}")
        case(f"amountof {number}", hexed(spelled))
    case("amount 0006765c793fa10079d0000001", "refused TooGreat")
    case("amount 00" + "ff" * 40, "refused TooGreat")
    case("amount 000005", "refused Zeros")
    case("amount 00", "refused Zeros")
    case("amount 0105", "refused Sign")
    case("amount 05", "refused Sign")
    case(f"amountof {greatest + 1}", "bad line")
    case("amountof 01", "bad line")


# ---- CIDs, and base 32

def ipfs_cids(data):
    """The texts of a CID of version 0 and of one of version 1, by the package ipfs-cid."""
    with tempfile.NamedTemporaryFile() as file:
        file.write(data)
        file.flush()
        made = subprocess.run(["ipfs_cid", file.name], stdout=subprocess.PIPE, stderr=subprocess.DEVNULL, check=True)
    told = eval(made.stdout.decode().splitlines()[0])
    return told["CIDv0"], told["CIDv1"]


def base58(text):
    letters = "123456789ABCDEFGHJKLMNPQRSTUVWXYZabcdefghijkmnopqrstuvwxyz"
    number = 0
    for letter in text:
        number = number * 58 + letters.index(letter)
    return number.to_bytes((number.bit_length() + 7) // 8, "big")


def bytes_of_text(text):
    letters = text[1:].upper()
    return base64.b32decode(letters + "=" * (-len(letters) % 8))


def cids():
    good = cid_of(0x71, b"abc")
    digest = good[6:]
    case(f"cid {good.hex()}", f"ok 38 1 113 45600 {digest.hex()} b{base32(good)}")
    case(f"cid {good.hex()}00", f"ok 38 1 113 45600 {digest.hex()} b{base32(good)}")
    case(f"cid {good[:-1].hex()}", "refused Cut")
    case("cid -", "refused Cut")
    case("cid 01", "refused Cut")
    case("cid 02" + good[1:].hex(), "refused Version")
    case("cid 8000" + good[1:].hex(), "refused Varint")
    case("cid 01" + "ff" * 9, "refused Varint")
    case("cid 0155128101" + "00" * 129, "refused TooLong")
    long = bytes.fromhex("0155128001") + bytes(128)
    case(f"cid {long.hex()}", f"ok 133 1 85 18 {'00' * 128} b{base32(long)}")
    empty = bytes.fromhex("01550000")
    case(f"cid {empty.hex()}", f"ok 4 1 85 0 - b{base32(empty)}")
    case("cid 12", "refused Cut")
    case("cid 1220", "refused Cut")
    case("cid 1221" + "00" * 32, "refused Version")
    version0, version1 = ipfs_cids(b"abc")
    raw0, raw1 = base58(version0), bytes_of_text(version1)
    case(f"cid {raw0.hex()}", f"ok 34 0 112 18 {raw0[2:].hex()} -")
    case(f"cid {raw0[:-1].hex()}", "refused Cut")
    case(f"cid {raw1.hex()}", f"ok 36 1 112 18 {raw1[4:].hex()} {version1}")
    case(f"cidtext {version1.encode().hex()}", f"ok {raw1.hex()}")
    text = "b" + base32(good)
    case(f"cidtext {text.encode().hex()}", f"ok {good.hex()}")
    case(f"cidtext {('z' + text[1:]).encode().hex()}", "refused Prefix")
    case(f"cidtext {('B' + text[1:].upper()).encode().hex()}", "refused Prefix")
    case(f"cidtext {version0.encode().hex()}", "refused Prefix")
    case("cidtext -", "refused Prefix")
    case(f"cidtext {b'b1'.hex()}", "refused Base32")
    case(f"cidtext {(text + 'a').encode().hex()}", "refused Base32")
    case(f"cidtext {b'b'.hex()}", "refused Form")
    case(f"cidtext {('b' + base32(raw0)).encode().hex()}", "refused Form")
    case(f"cidtext {('b' + base32(good + bytes(1))).encode().hex()}", "refused Form")
    case(f"cidtext {('b' + base32(good[:-1])).encode().hex()}", "refused Form")
    for codec, data in ((0x71, b"\x80"), (0x55, b""), (0x55, b"abc"), (0, b"a"), (2 ** 63 - 1, b"a")):
        case(f"cidof {codec} {hexed(data)}", "b" + base32(cid_of(codec, data)))
    case(f"cidof {2 ** 63} 00", "bad line")


def base32s():
    for data in (b"", b"\x00", b"f", b"fo", b"foo", b"foob", b"fooba", b"foobar", bytes(range(40)), b"\xff" * 20):
        case(f"base32 {hexed(data)}", base32(data) or "-")
        case(f"unbase32 {hexed(base32(data).encode())}", f"ok {hexed(data)}")
    case(f"unbase32 {b'a'.hex()}", "refused Length")
    case(f"unbase32 {b'aaa'.hex()}", "refused Length")
    case(f"unbase32 {b'aaaaaa'.hex()}", "refused Length")
    case(f"unbase32 {b'a1'.hex()}", "refused Letter 1")
    case(f"unbase32 {b'0a'.hex()}", "refused Letter 0")
    case(f"unbase32 {b'aaAa'.hex()}", "refused Letter 2")
    case(f"unbase32 {b'a='.hex()}", "refused Letter 1")
    case(f"unbase32 {b'ab'.hex()}", "refused Spare")
    case(f"unbase32 {b'a1a'.hex()}", "refused Length")


# ---- addresses

def address_text(network, data):
    protocol, payload = data[0], data[1:]
    return f"{network}{protocol}{base32(payload + blake(4, data))}"


def addresses():
    for number, spelled in ((0, "0000"), (1, "0001"), (1024, "008008"), (2 ** 63 - 1, "00" + "ff" * 8 + "7f")):
        case(f"address {spelled}", f"ok f0{number}")
        case(f"addresstext {f'f0{number}'.encode().hex()}", f"ok {spelled}")
        case(f"addresstext {f't0{number}'.encode().hex()}", f"ok {spelled}")
    for data in (b"\x01" + bytes(20), b"\x02" + bytes(range(20)), b"\x03" + bytes(range(48))):
        case(f"address {data.hex()}", "ok " + address_text("f", data))
        case(f"addresstext {address_text('f', data).encode().hex()}", f"ok {data.hex()}")
        case(f"addresstext {address_text('t', data).encode().hex()}", f"ok {data.hex()}")
        case(f"address {data.hex()}00", "refused Length")
        case(f"address {data[:-1].hex()}", "refused Length")
    case("address -", "refused Empty")
    case("address 05", "refused Protocol")
    case("address 040a0102", "refused Protocol")
    case("address 008000", "refused Number")
    case("address 00", "refused Number")
    case("address 000000", "refused Number")
    case("address 00" + "80" * 9 + "01", "refused Number")
    text = address_text("f", b"\x01" + bytes(20))
    other = "i" if text.endswith("a") else "a"
    refusals = (
        ("", "Empty"), ("f0", "Empty"), ("x01", "Letter"), ("F01", "Letter"), ("f41", "Protocol"), ("f/1", "Protocol"),
        ("f001", "Number"), ("f0-1", "Number"), ("f0+1", "Number"), ("f0a", "Number"), (f"f0{2 ** 63}", "Number"),
        ("f0" + "9" * 40, "Number"), (text[:2] + "b" + text[3:], "Checksum"), (text[:-1] + other, "Checksum"),
        (text[:-1], "Length"), ("f1" + "a" * 31, "Length"), (text + "a" * 8, "Length"), (text[:-1] + "1", "Letter"),
        (text[:2] + "A" + text[3:], "Letter"), (text[:-1] + "b", "Letter"),
        (f"f2{text[2:]}", "Checksum"), (f"f3{text[2:]}", "Length"), ("f1ab", "Letter"), ("f1a", "Length"),
    )
    for given, kind in refusals:
        case(f"addresstext {hexed(given.encode())}", f"refused {kind}")


# ---- BLAKE2b

def hashes():
    abc = ("ba80a53f981c4d0d6a2797b69f12f6e94c212f14685ac4b74b12bb6fdbffa2d1"
           "7d87c5392aab792dc252d5de4533cc9518d38aa8dbf1925ab92386edd4009923")
    case("blake 64 616263", abc)
    for length in (1, 20, 32, 64):
        for size in (0, 1, 127, 128, 129, 256, 300):
            data = bytes(i * 7 % 256 for i in range(size))
            case(f"blake {length} {hexed(data)}", blake(length, data).hex())
    data = bytes(i * 11 % 256 for i in range(300))
    for piece in (1, 127, 128, 129, 1000):
        case(f"blakecut 64 {piece} {data.hex()}", blake(64, data).hex())
    case("blakecut 32 1 -", blake(32, b"").hex())
    for size in (0, 1, 128, 129, 65535, 65536, 65537, 131072):
        case(f"blakezeros 32 {size}", blake(32, bytes(size)).hex())
    case("blake 0 00", "bad line")
    case("blake 65 00", "bad line")
    case("blakecut 32 0 00", "bad line")


# ---- DAG-CBOR

class Link:
    def __init__(self, cid):
        self.cid = cid


def dag_cbor(value):
    def tagged(encoder, link):
        encoder.encode(cbor2.CBORTag(42, b"\x00" + link.cid))
    return cbor2.dumps(value, canonical=True, default=tagged)


def nested(count):
    return "81" * (count - 1) + "80"


def cbors():
    link = Link(cid_of(0x71, b"\x80"))
    foreign = Link(bytes.fromhex("01551304aabbccdd"))
    values = (
        0, 23, 24, 255, 256, 65535, 65536, 2 ** 32 - 1, 2 ** 32, 2 ** 64 - 1, -1, -24, -25, -256, -257, -65537, -2 ** 32 - 1,
        -2 ** 64, b"", b"abc", bytes(24), "", "abc", "h\u00e9", "\U0001F600", [], [1, [2, []]], {}, {"b": 1, "aa": 2},
        {"a": [None, True, False]}, None, True, False, link, foreign, [link, {"x": foreign}], list(range(30)),
    )
    for value in values:
        case(f"cbor {dag_cbor(value).hex()}", f"ok {dag_cbor(value).hex()}")
    case("links 80", "ok")
    links = [link, {"x": foreign, "y": [link]}]
    case(f"links {dag_cbor(links).hex()}", f"ok {link.cid.hex()} {foreign.cid.hex()} {link.cid.hex()}")
    case("links 1817", "refused LongHead 0")
    case(f"cbor {nested(128)}", f"ok {nested(128)}")
    refusals = (
        # cut inside a head, a string, a list, a map, a link; of no bytes
        ("-", "Cut 0"), ("18", "Cut 1"), ("19", "Cut 1"), ("1900", "Cut 2"), ("41", "Cut 1"), ("4261", "Cut 2"),
        ("81", "Cut 1"), ("a16161", "Cut 3"), ("a1", "Cut 1"), ("d82a", "Cut 2"), ("d8", "Cut 1"), ("f9", "Cut 1"),
        ("f900", "Cut 2"), ("fb00000000000000", "Cut 8"), ("9b" + "ff" * 8, "Cut 9"), ("5b" + "ff" * 8, "Cut 9"),
        # a head in more bytes than needed
        ("1817", "LongHead 0"), ("190017", "LongHead 0"), ("1900ff", "LongHead 0"), ("1a0000ffff", "LongHead 0"),
        ("1b00000000ffffffff", "LongHead 0"), ("3817", "LongHead 0"), ("5800", "LongHead 0"), ("7800", "LongHead 0"),
        ("9800", "LongHead 0"), ("b800", "LongHead 0"), ("d817", "LongHead 0"), ("81d9002a4100", "LongHead 1"),
        # heads that mean nothing, open lengths
        ("1c", "Reserved 0"), ("3d", "Reserved 0"), ("5e", "Reserved 0"), ("1f", "Reserved 0"), ("3f", "Reserved 0"),
        ("df", "Reserved 0"), ("fc", "Reserved 0"), ("5f", "Indefinite 0"), ("7f", "Indefinite 0"), ("9fff", "Indefinite 0"),
        ("bfff", "Indefinite 0"), ("ff", "Indefinite 0"), ("81ff", "Indefinite 1"),
        # floating-point numbers, other simple values, other tags
        ("f90000", "Float 0"), ("fa00000000", "Float 0"), ("fb7ff0000000000000", "Float 0"), ("82f4f97e00", "Float 2"),
        ("f7", "Simple 0"), ("e0", "Simple 0"), ("f3", "Simple 0"), ("f814", "Simple 0"), ("f8ff", "Simple 0"),
        ("c24101", "Tag 0"), ("c0", "Tag 0"), ("d829", "Tag 0"), ("d82b", "Tag 0"), ("8200c2", "Tag 2"),
        # tag 42 over another thing than 00 and one CID
        ("d82a00", "LinkForm 0"), ("d82a40", "LinkForm 0"), ("d82a4100", "LinkForm 0"), ("d82a80", "LinkForm 0"),
        ("d82a4501551300ff", "LinkForm 0"), ("d82a47000155130100ff", "LinkForm 0"), ("81d82a420055", "LinkForm 1"),
        # texts
        ("61ff", "Utf8 0"), ("62c328", "Utf8 0"), ("63eda080", "Utf8 0"), ("64f4908080", "Utf8 0"), ("8261616180", "Utf8 3"),
        ("62c080", "Utf8 0"),
        # keys
        ("a1006161", "KeyKind 1"), ("a1416100", "KeyKind 1"), ("a1f600", "KeyKind 1"), ("a262616100616200", "KeyOrder 5"),
        ("a2616200616100", "KeyOrder 4"), ("a2616100616100", "KeyRepeat 4"), ("a26161f97e00", "Float 3"),
        ("a161ff00", "Utf8 1"),
        # nesting
        (nested(129), "Depth 128"), ("81" * 128 + "00", "Depth 128"), ("81" * 127 + "a16161", "Depth 128"),
        # bytes behind the item
        ("0000", "Trailing 1"), ("8000", "Trailing 1"), ("f6f6f6", "Trailing 1"), ("a0ff", "Trailing 1"),
    )
    for given, told in refusals:
        case(f"cbor {given}", f"refused {told}")
    case("cbor a261620062616100", "ok a261620062616100")


# ---- archives

def framed(content):
    return varint(len(content)) + content


def header(root, version=1):
    return framed(dag_cbor({"roots": [Link(root)], "version": version}))


def archive(root, blocks):
    return header(root) + b"".join(framed(cid + data) for cid, data in blocks)


def cars():
    root = cid_of(0x71, b"\x80")
    empty = (root, b"\x80")
    raw = (cid_of(0x55, b"abc"), b"abc")
    sha = (sha_cid_of(0x55, b"abc"), b"abc")
    pb = (cid_of(0x70, b"abc"), b"abc")

    def told(blocks):
        listed = [cid for cid, _ in blocks]
        if root not in listed:
            listed.append(root)
        return f"ok {root.hex()} {len(listed)} " + " ".join(cid.hex() for cid in listed)

    for blocks in ([], [empty], [raw], [raw, empty, sha], [raw, raw, pb], [(cid_of(0x55, b""), b"")], [empty, raw, empty]):
        data = archive(root, blocks)
        for piece in (1, 7, 65536):
            case(f"carfile {piece} {data.hex()}", told(blocks))
    foreign = bytes.fromhex("01551304aabbccdd")
    case(f"carfile 64 {archive(foreign, []).hex()}", f"ok {foreign.hex()} 1 {root.hex()}")
    begin = len(header(root))

    def refused(data, kind, at, piece=5):
        case(f"carfile {piece} {hexed(data)}", f"refused {kind} {at}")

    whole = archive(root, [raw, empty])
    for cut in (0, 1, 30, begin - 1, begin + 1, begin + 20, begin + len(framed(raw[0] + raw[1])) + 1, len(whole) - 1):
        refused(whole[:cut], "Cut", cut)
    good = archive(root, [raw])
    case(f"carfile 9 {good[:begin].hex()}", told([]))
    second = len(good)
    # the header: its length, its form, its version, its keys, its roots
    refused(b"\x80\x00" + whole, "Header", 0)
    refused(b"\xff" * 9, "Header", 0)
    refused(b"\x00", "Header", 0)
    refused(framed(b"\x80") + framed(raw[0] + raw[1]), "Header", 0)
    refused(framed(b"\xa1\x00\x00"), "Header", 0)
    refused(framed(dag_cbor({"roots": [Link(root)]})), "Header", 0)
    refused(framed(dag_cbor({"roots": [Link(root)], "version": 1, "x": 0})), "Header", 0)
    refused(header(root, 2), "Version", 0)
    refused(header(root, None), "Version", 0)
    refused(framed(dag_cbor({"x": 0, "version": 2})), "Version", 0)
    refused(framed(dag_cbor({"version": 1})), "Roots", 0)
    refused(framed(dag_cbor({"roots": [], "version": 1})), "Roots", 0)
    refused(framed(dag_cbor({"roots": [Link(root), Link(root)], "version": 1})), "Roots", 0)
    refused(framed(dag_cbor({"roots": [root], "version": 1})), "Roots", 0)
    refused(framed(dag_cbor({"roots": Link(root), "version": 1})), "Roots", 0)
    # sections
    refused(good + b"\x00", "Section", second)
    refused(good + b"\x80\x00" + bytes(40), "Section", second)
    refused(good + b"\xff" * 12, "Section", second)
    refused(good + framed(b"\x02" + raw[0][1:]), "Cid", second)
    refused(good + framed(raw[0][:-1]) + raw[0][-1:], "Cid", second)
    refused(good + framed(b"\x01"), "Cid", second)
    refused(good + framed(foreign + b"abc"), "HashNotSupported", second)
    refused(good + framed(b"\x12\x20" + hashlib.sha256(b"abc").digest() + b"abc"), "HashNotSupported", second)
    refused(good + framed(raw[0][:-1] + b"\x00" + b"abc"), "Digest", second)
    refused(good + framed(raw[0] + b"abd"), "Digest", second)
    refused(good + framed(sha[0] + b"abd"), "Digest", second)
    refused((good + framed(raw[0] + b"abd"))[:-1], "Cut", len(good + framed(raw[0] + b"abd")) - 1)
    refused(header(root) + framed(raw[0] + b"abd") + b"\x00", "Digest", begin)
    case("carfile 0 00", "bad line")
    # writing
    case(f"carof {root.hex()}", archive(root, []).hex())
    case(f"carof {foreign.hex()} -", archive(foreign, [(cid_of(0x55, b""), b"")]).hex())
    case(f"carof {root.hex()} 616263 80", archive(root, [raw, (cid_of(0x55, b"\x80"), b"\x80")]).hex())
    large = bytes(i % 251 for i in range(300))
    case(f"carof {root.hex()} {large.hex()}", archive(root, [(cid_of(0x55, large), large)]).hex())
    case("carof 00", "bad line")
    case(f"carof {root.hex()}00", "bad line")
    case("carof -", "bad line")
    # finding
    for count in (0, 1, 300):
        case(f"findall {count}", "ok")
    case("findall 4294967296", "bad line")


# ---- lines that are none

def bad_lines():
    lines = (
        "", " ", "what", "varint", "varint ", " varint 00", "varint  00", "varint 00 ", "varint 00 00", "varint 0", "varint 0g",
        "varint AA", "VARINT 00", "varint 00\r", "varintof -1", "varintof +1", "varintof 00", "varintof 1.0", "varintof -",
        "varintof 18446744073709551616", "amountof " + "9" * 60, "cidof 85", "cidof 00 00", "base32", "blake 32", "blake 1 1",
        "blake -1 00", "blakecut 32 1", "blakezeros 32 00", "blakezeros 32", "cbor", "cbor 80 80", "carfile 80", "carof", "\u00e9 00",
    )
    for line in lines:
        case(line, "bad line")


def main(stdin, stdout):
    for part in (varints, amounts, cids, base32s, addresses, hashes, cbors, cars, bad_lines):
        part()
    with open(stdin, "w", newline="") as lines, open(stdout, "w", newline="") as answers:
        for line, answer in CASES:
            lines.write(line + "\n")
            answers.write(answer + "\n")
    print(f"{len(CASES)} lines")


main(*sys.argv[1:])
