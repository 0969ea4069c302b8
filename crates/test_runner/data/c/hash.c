/* Hashes bytes (FNV, Adler, Murmur), and keeps numbers in a table with open addressing. */
typedef unsigned int u32;
typedef unsigned char u8;
typedef unsigned long long u64;
static u8 text[8192];
static u32 keys[2048], values[2048];
static u32 fnv(const u8 *p, u32 n) {
    u32 h = 2166136261u;
    while (n--) {
        h ^= *p++;
        h *= 16777619u;
    }
    return h;
}
static u32 adler(const u8 *p, u32 n) {
    u32 a = 1, b = 0;
    for (u32 i = 0; i < n; i++) {
        a = (a + p[i]) % 65521;
        b = (b + a) % 65521;
    }
    return b << 16 | a;
}
static u32 rotl(u32 x, int r) {
    return x << r | x >> (32 - r);
}
static u32 murmur(const u32 *p, u32 n) {
    u32 h = 1;
    for (u32 i = 0; i < n; i++) {
        u32 k = p[i] * 0xcc9e2d51u;
        k = rotl(k, 15) * 0x1b873593u;
        h = rotl(h ^ k, 13) * 5 + 0xe6546b64u;
    }
    h ^= h >> 16;
    h *= 0x85ebca6bu;
    h ^= h >> 13;
    return h;
}
static void put(u32 k, u32 v) {
    u32 i = (k * 2654435769u) >> 21;
    while (keys[i] && keys[i] != k)
        i = (i + 1) & 2047;
    keys[i] = k;
    values[i] += v;
}
static u32 get(u32 k) {
    u32 i = (k * 2654435769u) >> 21;
    while (keys[i]) {
        if (keys[i] == k)
            return values[i];
        i = (i + 1) & 2047;
    }
    return 0;
}
static u64 mix(u64 s) {
    s ^= s >> 33;
    s *= 0xff51afd7ed558ccdull;
    s ^= s >> 33;
    return s;
}
int main(void) {
    u32 s = 1, r = 0;
    u64 m = 9;
    for (int i = 0; i < 8192; i++) {
        s = s * 1664525 + 1013904223;
        text[i] = s >> 24;
    }
    for (int k = 0; k < 30; k++) {
        r ^= fnv(text, 8192);
        r += adler(text, 4096);
        r ^= murmur((u32 *)text, 2048);
        for (int i = 0; i < 1400; i++)
            put(i * 7919 + 1, r & 15);
        for (int i = 0; i < 2800; i++)
            r += get(i * 7919 + 1);
        for (int i = 0; i < 500; i++)
            m = mix(m + i);
        text[k] ^= r;
    }
    return (r ^ (u32)m) & 0x7f;
}
