/* Flood fill, shortest paths with a heap, joining of sets, and a knapsack. */
typedef unsigned int u32;
typedef int s32;
typedef unsigned char u8;
#define W 48
static u8 grid[W * W];
static u32 dist[W * W];
static u32 queue[W * W];
static u32 parent[W * W];
static u32 heapv[4096], heapk[4096];
static int hn;
static u32 find(u32 x) {
    while (parent[x] != x) {
        parent[x] = parent[parent[x]];
        x = parent[x];
    }
    return x;
}
static void join(u32 a, u32 b) {
    a = find(a);
    b = find(b);
    if (a != b)
        parent[a] = b;
}
static void flood(u32 s) {
    for (int i = 0; i < W * W; i++)
        dist[i] = ~0u;
    u32 h = 0, t = 0;
    queue[t++] = s;
    dist[s] = 0;
    static const int d[4] = {1, -1, W, -W};
    while (h < t) {
        u32 c = queue[h++];
        for (int k = 0; k < 4; k++) {
            u32 n = c + d[k];
            if (n < W * W && !grid[n] && dist[n] == ~0u) {
                dist[n] = dist[c] + 1;
                queue[t++] = n;
            }
        }
    }
}
static void up(u32 k, u32 v) {
    int i = hn++;
    while (i && heapk[(i - 1) / 2] > k) {
        heapk[i] = heapk[(i - 1) / 2];
        heapv[i] = heapv[(i - 1) / 2];
        i = (i - 1) / 2;
    }
    heapk[i] = k;
    heapv[i] = v;
}
static u32 pop(void) {
    u32 r = heapv[0];
    u32 k = heapk[--hn], v = heapv[hn];
    int i = 0;
    for (;;) {
        int c = 2 * i + 1;
        if (c >= hn)
            break;
        if (c + 1 < hn && heapk[c + 1] < heapk[c])
            c++;
        if (heapk[c] >= k)
            break;
        heapk[i] = heapk[c];
        heapv[i] = heapv[c];
        i = c;
    }
    heapk[i] = k;
    heapv[i] = v;
    return r;
}
static u32 dijkstra(u32 s) {
    for (int i = 0; i < W * W; i++)
        dist[i] = ~0u;
    hn = 0;
    dist[s] = 0;
    up(0, s);
    u32 seen = 0;
    while (hn) {
        u32 c = pop();
        seen++;
        static const int d[4] = {1, -1, W, -W};
        for (int k = 0; k < 4; k++) {
            u32 n = c + d[k];
            if (n >= W * W || grid[n])
                continue;
            u32 w = dist[c] + 1 + (n * 7 & 3);
            if (w < dist[n]) {
                dist[n] = w;
                if (hn < 4000)
                    up(w, n);
            }
        }
    }
    return seen;
}
static u32 knap(void) {
    static u32 best[512];
    u32 s = 9;
    for (int i = 0; i < 512; i++)
        best[i] = 0;
    for (int i = 0; i < 40; i++) {
        s = s * 1664525 + 1;
        u32 w = 1 + (s >> 20) % 50, v = (s >> 8) & 255;
        for (int c = 511; c >= (int)w; c--) {
            u32 n = best[c - w] + v;
            if (n > best[c])
                best[c] = n;
        }
    }
    return best[511];
}
int main(void) {
    u32 s = 1, h = 0;
    for (int r = 0; r < 6; r++) {
        for (int i = 0; i < W * W; i++) {
            s = s * 1103515245 + 12345;
            grid[i] = (s >> 16) % 10 < 3;
            parent[i] = i;
        }
        for (int i = 0; i < W * W - W; i++)
            if (!grid[i]) {
                if (!grid[i + 1])
                    join(i, i + 1);
                if (!grid[i + W])
                    join(i, i + W);
            }
        for (int i = 0; i < W * W; i++)
            h += find(i) == (u32)i;
        grid[0] = 0;
        flood(0);
        h += dist[W * W - 1] + dist[W];
        h ^= dijkstra(0) + knap();
    }
    return h & 0x7f;
}
