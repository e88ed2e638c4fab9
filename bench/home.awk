# The home of a key in a group of four data processes: the two lowest bits of its FNV-1a hash.
function home(key,   h, i, b, x, y) {
    if (!(0 in xor2)) for (x = 0; x < 4; x++) for (y = 0; y < 4; y++) xor2[x * 4 + y] = (x % 2 != y % 2) + 2 * (int(x / 2) != int(y / 2))
    h = 1
    for (i = 1; i <= length(key); i++) {
        b = index("0123456789", substr(key, i, 1)); b = b ? (b - 1) % 4 : 3
        h = xor2[h * 4 + b] * 3 % 4
    }
    return h
}
