"""Document 01's rules in Python integers, written from the document: what the expected outputs are made with. Nothing here comes from the library."""


def le(x):
    return x.to_bytes(32, "little").hex()


# R's table: digits, top of the last, range's end
ROWS = {4: (64, 8, 2**255), 5: (52, 2, 2**256), 6: (43, 16, 2**256), 7: (37, 16, 2**256), 8: (33, 1, 2**256)}


def verdict(digits, long, allowed, own, gap, base, end):
    """The acceptance test: number and position."""
    if len(digits) != long:
        return 1, 0
    if not allowed:
        return 3, 0
    for i, d in enumerate(digits):
        if not own(i, d):
            return 5, i
        if d != 0 and any(digits[j] != 0 for j in range(max(0, i - gap), i)):
            return 6, i
    total = sum(d * base**i for i, d in enumerate(digits))
    if total < 0:
        return 7, 0
    if total >= end:
        return 8, 0
    return 0, 0


def verdict_n(digits, w):
    allowed = 2 <= w <= 8
    own = lambda i, d: d == 0 or (d % 2 == 1 and abs(d) < 2**(w - 1))
    return verdict(digits, 256, allowed, own, w - 1 if allowed else 0, 2, 2**255)


def verdict_r(digits, w):
    allowed = w in ROWS
    n, top, end = ROWS.get(w, (0, 0, 0))

    def own(i, d):
        if i < n - 1:
            return -2**(w - 1) <= d < 2**(w - 1)
        if i == n - 1:
            return 0 <= d <= top
        return d == 0

    return verdict(digits, 64, allowed, own, 0, 2**w if allowed else 2, end)


def read(digits, w, test, base):
    """The reader: the test's verdict, and the 32 bytes."""
    v = test(digits, w)
    return v, le(sum(d * base**i for i, d in enumerate(digits)) if v == (0, 0) else 0)


def recode_n(x, w):
    """Digits by the definition: from the lowest place, the odd residue of least absolute value modulo 2^w."""
    if not 2 <= w <= 8:
        return (3, 0), [0] * 256
    if x >= 2**255:
        return (4, 0), [0] * 256
    digits = []
    for _ in range(256):
        d = 0
        if x % 2:
            d = (x + 2**(w - 1)) % 2**w - 2**(w - 1)
        digits.append(d)
        x = (x - d) // 2
    assert x == 0
    return (0, 0), digits


def recode_r(x, w):
    if w not in ROWS:
        return (3, 0), [0] * 64, 0
    if w == 4 and x >= 2**255:
        return (4, 0), [0] * 64, 0
    n = ROWS[w][0]
    digits = []
    for _ in range(n - 1):
        d = (x + 2**(w - 1)) % 2**w - 2**(w - 1)
        digits.append(d)
        x = (x - d) // 2**w
    return (0, 0), digits + [x] + [0] * (64 - n), n


def shown(digits):
    return "".join(f"{i}:{d} " for i, d in enumerate(digits) if d)


def count_of(digits):
    return max((i + 1 for i, d in enumerate(digits) if d), default=0)


def pair(v):
    return f"{v[0]} {v[1]} "
