"""AES-128 (FIPS 197) and AES-CMAC (RFC 4493), from the text of the standards.

A state is 16 bytes, column by column: the byte in row r and column c is byte r + 4 c. The substitution and the products
with the numbers of MixColumns are worked out once, by the field's own multiplication.
"""
import functools

# ---- FIPS 197, 4: the field GF(2^8)


def times(a: int, b: int) -> int:
    """The product of two bytes modulo x^8 + x^4 + x^3 + x + 1 (4.2)."""
    product = 0
    while a:
        if a & 1:
            product ^= b
        a >>= 1
        b = b << 1 ^ (0x11b if b & 0x80 else 0)
    return product


def inverse(b: int) -> int:
    """The byte whose product with b is 1; 0 for 0 (5.1.1)."""
    return next((x for x in range(256) if times(b, x) == 1), 0)


def substituted(b: int) -> int:
    """SubBytes of one byte: the affine map of its inverse (5.1.1)."""
    x, result = inverse(b), 0
    for i in range(8):
        bit = (x >> i ^ x >> (i + 4) % 8 ^ x >> (i + 5) % 8 ^ x >> (i + 6) % 8 ^ x >> (i + 7) % 8 ^ 0x63 >> i) & 1
        result |= bit << i
    return result


@functools.lru_cache(maxsize=None)
def substitution() -> bytes:
    """SubBytes for each byte."""
    return bytes(substituted(b) for b in range(256))


@functools.lru_cache(maxsize=None)
def inverse_substitution() -> bytes:
    """InvSubBytes for each byte (5.3.2)."""
    return bytes(substitution().index(b) for b in range(256))


@functools.lru_cache(maxsize=None)
def products(factor: int) -> bytes:
    """The product of each byte with a factor."""
    return bytes(times(factor, b) for b in range(256))


# ---- FIPS 197, 5.2: key expansion


@functools.lru_cache(maxsize=1024)
def round_keys(key: bytes) -> list[bytes]:
    """The eleven keys of the rounds."""
    box, words = substitution(), [key[i:i + 4] for i in range(0, 16, 4)]
    rcon = 1
    for i in range(4, 44):
        word = words[i - 1]
        if i % 4 == 0:
            word = bytes(box[b] for b in word[1:] + word[:1])
            word = bytes([word[0] ^ rcon]) + word[1:]
            rcon = times(2, rcon)
        words.append(bytes(a ^ b for a, b in zip(words[i - 4], word)))
    return [b"".join(words[i:i + 4]) for i in range(0, 44, 4)]


# ---- FIPS 197, 5.1 and 5.3: the cipher and its inverse


def added(a: bytes, b: bytes) -> bytes:
    """AddRoundKey, and the sum of any two blocks."""
    return bytes(x ^ y for x, y in zip(a, b))


def rows_shifted(state: bytes, step: int) -> bytes:
    """ShiftRows: row r moves left by r places; by -r where step is -1."""
    return bytes(state[r + 4 * ((c + step * r) % 4)] for c in range(4) for r in range(4))


def columns_mixed(state: bytes, factors: tuple[int, int, int, int]) -> bytes:
    """MixColumns: each byte is the sum of its column's bytes, from its row on, times these factors."""
    tables = [products(factor) for factor in factors]
    return bytes(
        tables[0][state[r + 4 * c]]
        ^ tables[1][state[(r + 1) % 4 + 4 * c]]
        ^ tables[2][state[(r + 2) % 4 + 4 * c]]
        ^ tables[3][state[(r + 3) % 4 + 4 * c]]
        for c in range(4)
        for r in range(4)
    )


@functools.lru_cache(maxsize=2**18)
def encrypt(key: bytes, block: bytes) -> bytes:
    """The encryption of a block."""
    keys, state = round_keys(key), added(block, key)
    for n in range(1, 11):
        state = rows_shifted(state.translate(substitution()), 1)
        if n < 10:
            state = columns_mixed(state, (2, 3, 1, 1))
        state = added(state, keys[n])
    return state


def decrypt(key: bytes, block: bytes) -> bytes:
    """The block whose encryption this is."""
    keys, state = round_keys(key), block
    for n in range(10, 0, -1):
        state = added(state, keys[n])
        if n < 10:
            state = columns_mixed(state, (14, 11, 13, 9))
        state = rows_shifted(state, -1).translate(inverse_substitution())
    return added(state, keys[0])


# ---- RFC 4493


def doubled(block: bytes) -> bytes:
    """A block shifted left by one bit, and 87 added where its top bit was 1 (2.3)."""
    number = int.from_bytes(block, "big") << 1
    if number >> 128:
        number ^= 1 << 128 | 0x87
    return number.to_bytes(16, "big")


def cmac(key: bytes, message: bytes) -> bytes:
    """T, the code of a message (2.4)."""
    k1 = doubled(encrypt(key, bytes(16)))
    before = max(0, len(message) - 1) // 16
    last = message[16 * before:]
    if len(last) == 16:
        last = added(last, k1)
    else:
        last = added(last + b"\x80" + bytes(15 - len(last)), doubled(k1))
    chain = bytes(16)
    for k in range(before):
        chain = encrypt(key, added(chain, message[16 * k:16 * k + 16]))
    return encrypt(key, added(chain, last))
