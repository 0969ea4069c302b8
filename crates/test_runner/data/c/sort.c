/* Sorts numbers three ways: quicksort, heapsort and insertion. */
typedef unsigned int u32;
typedef int s32;
static s32 a[4096], b[4096];
static u32 seed = 7;
static u32 next(void) {
    seed ^= seed << 13;
    seed ^= seed >> 17;
    seed ^= seed << 5;
    return seed;
}
static void quick(s32 *v, int lo, int hi) {
    while (lo < hi) {
        s32 p = v[(lo + hi) / 2];
        int i = lo, j = hi;
        while (i <= j) {
            while (v[i] < p)
                i++;
            while (v[j] > p)
                j--;
            if (i <= j) {
                s32 t = v[i];
                v[i++] = v[j];
                v[j--] = t;
            }
        }
        if (j - lo < hi - i) {
            quick(v, lo, j);
            lo = i;
        } else {
            quick(v, i, hi);
            hi = j;
        }
    }
}
static void heap(s32 *v, int n) {
    for (int s = n / 2 - 1; s >= 0; s--) {
        int r = s;
        for (;;) {
            int c = 2 * r + 1;
            if (c >= n)
                break;
            if (c + 1 < n && v[c] < v[c + 1])
                c++;
            if (v[r] >= v[c])
                break;
            s32 t = v[r];
            v[r] = v[c];
            v[c] = t;
            r = c;
        }
    }
    for (int e = n - 1; e > 0; e--) {
        s32 t = v[0];
        v[0] = v[e];
        v[e] = t;
        int r = 0;
        for (;;) {
            int c = 2 * r + 1;
            if (c >= e)
                break;
            if (c + 1 < e && v[c] < v[c + 1])
                c++;
            if (v[r] >= v[c])
                break;
            t = v[r];
            v[r] = v[c];
            v[c] = t;
            r = c;
        }
    }
}
static void insertion(s32 *v, int n) {
    for (int i = 1; i < n; i++) {
        s32 x = v[i];
        int j = i - 1;
        while (j >= 0 && v[j] > x) {
            v[j + 1] = v[j];
            j--;
        }
        v[j + 1] = x;
    }
}
int main(void) {
    u32 sum = 0;
    for (int r = 0; r < 12; r++) {
        for (int i = 0; i < 4096; i++)
            b[i] = a[i] = next();
        quick(a, 0, 4095);
        heap(b, 4096);
        for (int i = 0; i < 300; i++)
            b[i] = next();
        insertion(b, 300);
        sum += a[r * 5] ^ b[r];
    }
    return sum & 0x7f;
}
