/* Counts and reverses bits, takes roots, plays Life, packs bits and computes a CRC. */
typedef unsigned int u32;
typedef unsigned char u8;
static u32 pop(u32 x) {
    x -= x >> 1 & 0x55555555;
    x = (x & 0x33333333) + (x >> 2 & 0x33333333);
    x = (x + (x >> 4)) & 0x0f0f0f0f;
    return x * 0x01010101 >> 24;
}
static u32 rev(u32 x) {
    x = (x >> 1 & 0x55555555) | (x & 0x55555555) << 1;
    x = (x >> 2 & 0x33333333) | (x & 0x33333333) << 2;
    x = (x >> 4 & 0x0f0f0f0f) | (x & 0x0f0f0f0f) << 4;
    x = (x >> 8 & 0x00ff00ff) | (x & 0x00ff00ff) << 8;
    return x >> 16 | x << 16;
}
static u32 clz(u32 x) {
    u32 n = 0;
    if (!x)
        return 32;
    while (!(x & 0x80000000)) {
        x <<= 1;
        n++;
    }
    return n;
}
static u32 root(u32 x) {
    u32 r = 0, b = 1u << 30;
    while (b > x)
        b >>= 2;
    while (b) {
        if (x >= r + b) {
            x -= r + b;
            r = (r >> 1) + b;
        } else
            r >>= 1;
        b >>= 2;
    }
    return r;
}
static u32 life[32];
static void step(void) {
    u32 n[32];
    for (int y = 0; y < 32; y++) {
        u32 o = 0;
        for (int x = 0; x < 32; x++) {
            int c = 0;
            for (int dy = -1; dy <= 1; dy++)
                for (int dx = -1; dx <= 1; dx++)
                    if (dx || dy)
                        c += life[(y + dy) & 31] >> ((x + dx) & 31) & 1;
            if (c == 3 || (c == 2 && life[y] >> x & 1))
                o |= 1u << x;
        }
        n[y] = o;
    }
    for (int y = 0; y < 32; y++)
        life[y] = n[y];
}
static u32 crc(const u8 *p, u32 n) {
    u32 c = ~0u;
    while (n--) {
        c ^= *p++;
        for (int k = 0; k < 8; k++)
            c = c >> 1 ^ (0xedb88320 & -(c & 1));
    }
    return ~c;
}
static u8 out[600];
static u32 pack(const u8 *p, u32 n) {
    u32 acc = 0, have = 0, k = 0;
    for (u32 i = 0; i < n; i++) {
        acc = acc << 5 | (p[i] & 31);
        have += 5;
        while (have >= 8) {
            have -= 8;
            out[k++] = acc >> have;
        }
    }
    return k;
}
static u32 collatz(u32 n) {
    u32 c = 0;
    while (n != 1) {
        n = n & 1 ? 3 * n + 1 : n >> 1;
        c++;
    }
    return c;
}
int main(void) {
    u32 h = 0;
    for (int i = 0; i < 32; i++)
        life[i] = 0x9e3779b9u * (i + 1);
    for (u32 i = 1; i < 3000; i++) {
        h += pop(i * 2654435761u) + rev(h) + clz(i);
        if (i % 8 == 0)
            h ^= root(i * 40503u);
    }
    for (int i = 0; i < 12; i++)
        step();
    h ^= crc((u8 *)life, 128);
    h += pack((u8 *)life, 128);
    for (u32 i = 1; i < 300; i++)
        h += collatz(i);
    return (h ^ life[3]) & 0x7f;
}
