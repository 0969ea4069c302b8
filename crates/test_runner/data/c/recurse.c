/* Recursion: Fibonacci, Ackermann, queens, trees, towers and greatest common divisors. */
typedef unsigned int u32;
typedef int s32;
static u32 fib(u32 n) {
    return n < 2 ? n : fib(n - 1) + fib(n - 2);
}
static u32 ack(u32 m, u32 n) {
    return m == 0 ? n + 1 : n == 0 ? ack(m - 1, 1) : ack(m - 1, ack(m, n - 1));
}
static int queens(int n, int row, u32 cols, u32 left, u32 right) {
    if (row == n)
        return 1;
    int c = 0;
    u32 free = ~(cols | left | right) & ((1u << n) - 1);
    while (free) {
        u32 bit = free & -free;
        free ^= bit;
        c += queens(n, row + 1, cols | bit, (left | bit) << 1, (right | bit) >> 1);
    }
    return c;
}
struct tree {
    struct tree *l, *r;
    s32 key;
};
static struct tree nodes[1024];
static int used;
static struct tree *insert(struct tree *t, s32 k) {
    if (!t) {
        t = &nodes[used++];
        t->l = t->r = 0;
        t->key = k;
        return t;
    }
    if (k < t->key)
        t->l = insert(t->l, k);
    else
        t->r = insert(t->r, k);
    return t;
}
static u32 depth(struct tree *t) {
    if (!t)
        return 0;
    u32 a = depth(t->l), b = depth(t->r);
    return 1 + (a > b ? a : b);
}
static s32 total(struct tree *t) {
    return t ? t->key + total(t->l) + total(t->r) : 0;
}
static void hanoi(int n, int a, int b, int c, u32 *m) {
    if (!n)
        return;
    hanoi(n - 1, a, c, b, m);
    *m = *m * 3 + a * b;
    hanoi(n - 1, c, b, a, m);
}
static u32 gcd(u32 a, u32 b) {
    return b ? gcd(b, a % b) : a;
}
int main(void) {
    u32 h = fib(20) + ack(2, 40) + queens(7, 0, 0, 0, 0), s = 5;
    struct tree *t = 0;
    used = 0;
    for (int i = 0; i < 1000; i++) {
        s = s * 69069 + 1;
        t = insert(t, (s32)s >> 8);
    }
    for (int i = 0; i < 20; i++)
        h += depth(t) + total(t);
    hanoi(13, 1, 2, 3, &h);
    for (u32 i = 1; i < 3000; i++)
        h += gcd(i * 7919, 360360);
    return h & 0x7f;
}
