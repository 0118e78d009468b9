"""Names made to have one hash, for a hash table that begins from a known state.

`HashKey` of crates/fb_index begins its hash of names (the fold hash of Rattle's std) from SipHash-1-3 of the text that
has them. Whoever writes a text can't choose names by its key, since they are part of it: they can choose names for the
hash without a key (`UNKEYED`), or for the key of another text (`key_of`). Both must cost no more than other names.

How such names are made: one step of the fold hash multiplies 8 bytes, combined with the state by xor, by 8 more. Where
the first 8 bytes are the state itself the product is 0, whatever the others are. So it takes 16 bytes behind which each
byte of the state is a letter, a digit or '_', which is one try in 75,000; then these 8, and any 8 behind them.
"""
import itertools
import string

MASK = 2 ** 64 - 1
MULTIPLIER = 0x9E3779B97F4A7C15
# The state of the fold hash before anything is written to it, where it has no key.
UNKEYED = 0x243F6A8885A308D3
LETTERS = string.ascii_letters
WORD_BYTES = (string.ascii_letters + string.digits + "_").encode()


def folded_multiply(a, b):
    product = a * b
    return product & MASK ^ product >> 64


def read_short(data):
    """Up to 8 bytes as one number."""
    if len(data) >= 4:
        return int.from_bytes(data[:4], "little") | int.from_bytes(data[-4:], "little") << 32
    if data:
        return data[0] | data[len(data) // 2] << 8 | data[-1] << 16
    return 0


def fold(state, data):
    """The state of the fold hash after these bytes are written in one call."""
    if len(data) <= 8:
        return folded_multiply(state ^ read_short(data), MULTIPLIER ^ 2 * len(data))
    state = state + len(data) & MASK
    at = 0
    while len(data) - at > 16:
        state = fold_block(state, data[at:at + 16])
        at += 16
    # The last 16 bytes overlap those before; of fewer than 16 both halves do.
    first, last = data[max(len(data) - 16, 0):][:8], data[-8:]
    return folded_multiply(int.from_bytes(first, "little") ^ state, int.from_bytes(last, "little") ^ MULTIPLIER)


def fold_block(state, block):
    first, last = int.from_bytes(block[:8], "little"), int.from_bytes(block[8:], "little")
    return folded_multiply(first ^ state, last ^ MULTIPLIER)


def rotate(value, count):
    return (value << count | value >> 64 - count) & MASK


def sip_hash(data):
    """SipHash-1-3 with both keys 0."""
    v0, v1, v2, v3 = 0x736F6D6570736575, 0x646F72616E646F6D, 0x6C7967656E657261, 0x7465646279746573

    def sip_round():
        nonlocal v0, v1, v2, v3
        v0, v2 = v0 + v1 & MASK, v2 + v3 & MASK
        v1, v3 = rotate(v1, 13) ^ v0, rotate(v3, 16) ^ v2
        v0 = rotate(v0, 32)
        v2, v0 = v2 + v1 & MASK, v0 + v3 & MASK
        v1, v3 = rotate(v1, 17) ^ v2, rotate(v3, 21) ^ v0
        v2 = rotate(v2, 32)

    whole = len(data) // 8 * 8
    words = [int.from_bytes(data[at:at + 8], "little") for at in range(0, whole, 8)]
    words.append((len(data) & 0xFF) << 56 | int.from_bytes(data[whole:], "little"))
    for word in words:
        v3 ^= word
        sip_round()
        v0 ^= word
    v2 ^= 0xFF
    for _ in range(3):
        sip_round()
    return v0 ^ v1 ^ v2 ^ v3


def key_of(text):
    """The state from which `HashKey::of(text)` begins."""
    return fold(UNKEYED, sip_hash(text).to_bytes(8, "little"))


def behind_path(state, path=0):
    """The state behind the number of a path, which a word of a type's full name is hashed with; 0 is the empty path."""
    return fold(state, path.to_bytes(8, "little"))


def names(state, count):
    """So many names of 32 bytes, all with one hash from this state."""
    began = state + 32 & MASK
    for choice in itertools.product(LETTERS, repeat=4):
        front = "".join(choice).encode() * 4
        middle = fold_block(began, front).to_bytes(8, "little")
        if all(byte in WORD_BYTES for byte in middle):
            break
    start = (front + middle).decode()
    return [f"{start}{number:08d}" for number in range(count)]


def enum_values(some):
    """A schema whose enum has values of these names."""
    return f"enum E : uint {{ {', '.join(some)} }} table T {{ e:E; }} root_type T;\n"


def fields(some):
    """A schema whose struct has fields of these names."""
    return f"struct S {{ {' '.join(name + ':ubyte;' for name in some)} }} table T {{ s:S; }} root_type T;\n"


def types(some):
    """A schema whose tables have these names; take them from `behind_path`."""
    tables = "".join(f"table {name} {{ a:ubyte; }}\n" for name in some)
    return tables + f"root_type {some[0]};\n"
