/* Makes, sorts, joins, finds, reverses and decodes strings. */
typedef unsigned int u32;
typedef unsigned char u8;
static char pool[16384];
static char buf[512];
static const char *words[512];
static u32 len(const char *s) {
    const char *p = s;
    while (*p)
        p++;
    return p - s;
}
static int cmp(const char *a, const char *b) {
    while (*a && *a == *b) {
        a++;
        b++;
    }
    return (u8)*a - (u8)*b;
}
static char *copy(char *d, const char *s) {
    while ((*d = *s)) {
        d++;
        s++;
    }
    return d;
}
static const char *find(const char *h, const char *n) {
    u32 l = len(n);
    for (; *h; h++) {
        u32 i = 0;
        while (i < l && h[i] == n[i])
            i++;
        if (i == l)
            return h;
    }
    return 0;
}
static void upper(char *s) {
    for (; *s; s++)
        if (*s >= 'a' && *s <= 'z')
            *s -= 32;
}
static void reverse(char *s) {
    u32 i = 0, j = len(s);
    while (i + 1 < j) {
        char t = s[i];
        s[i++] = s[--j];
        s[j] = t;
    }
}
static u32 utf8(const u8 *s) {
    u32 n = 0, sum = 0;
    while (*s) {
        u32 c = *s++;
        if (c >= 0xe0) {
            c = (c & 15) << 12 | (s[0] & 63) << 6 | (s[1] & 63);
            s += 2;
        } else if (c >= 0xc0) {
            c = (c & 31) << 6 | (*s++ & 63);
        }
        sum += c;
        n++;
    }
    return n ^ sum;
}
int main(void) {
    u32 h = 0, s = 3;
    for (int r = 0; r < 16; r++) {
        char *p = pool;
        int n = 0;
        while (n < 300) {
            words[n++] = p;
            s = s * 1103515245 + 12345;
            u32 l = 2 + (s >> 16) % 9;
            for (u32 i = 0; i < l; i++) {
                s = s * 1103515245 + 12345;
                *p++ = 'a' + (s >> 16) % 26;
            }
            *p++ = 0;
        }
        for (int g = 150; g; g /= 2)
            for (int i = g; i < n; i++) {
                const char *t = words[i];
                int j = i;
                while (j >= g && cmp(words[j - g], t) > 0) {
                    words[j] = words[j - g];
                    j -= g;
                }
                words[j] = t;
            }
        char *d = buf;
        for (int i = 0; i < 40; i++) {
            d = copy(d, words[i]);
            *d++ = ' ';
        }
        *d = 0;
        h += find(buf, "zq") != 0;
        h += find(buf, words[39]) - buf;
        upper(buf);
        reverse(buf);
        h ^= utf8((const u8 *)buf) + len(buf);
    }
    return h & 0x7f;
}
