/* Multiplies and transposes matrices, runs a stencil over one, and eliminates. */
typedef unsigned int u32;
typedef int s32;
#define N 40
static s32 a[N][N], b[N][N], c[N][N];
static s32 lu[N][N];
static void multiply(void) {
    for (int i = 0; i < N; i++)
        for (int j = 0; j < N; j++) {
            s32 s = 0;
            for (int k = 0; k < N; k++)
                s += a[i][k] * b[k][j];
            c[i][j] = s;
        }
}
static void transpose(s32 m[N][N]) {
    for (int i = 0; i < N; i++)
        for (int j = i + 1; j < N; j++) {
            s32 t = m[i][j];
            m[i][j] = m[j][i];
            m[j][i] = t;
        }
}
static void stencil(void) {
    for (int i = 1; i < N - 1; i++)
        for (int j = 1; j < N - 1; j++)
            c[i][j] = (a[i - 1][j] + a[i + 1][j] + a[i][j - 1] + a[i][j + 1] + 4 * a[i][j]) >> 3;
}
static void eliminate(void) {
    for (int i = 0; i < N; i++)
        for (int j = 0; j < N; j++)
            lu[i][j] = (c[i][j] & 1023) + (i == j ? 4096 : 1);
    for (int k = 0; k < N; k++)
        for (int i = k + 1; i < N; i++) {
            s32 f = (lu[i][k] << 8) / (lu[k][k] ? lu[k][k] : 1);
            for (int j = k; j < N; j++)
                lu[i][j] -= (f * lu[k][j]) >> 8;
        }
}
int main(void) {
    u32 s = 0;
    for (int i = 0; i < N; i++)
        for (int j = 0; j < N; j++) {
            a[i][j] = i * j + 3;
            b[i][j] = i - j;
        }
    for (int r = 0; r < 10; r++) {
        multiply();
        transpose(c);
        stencil();
        eliminate();
        for (int i = 0; i < N; i++)
            s += lu[i][i] + c[i][N - 1 - i];
        a[r][r] += s;
    }
    return s & 0x7f;
}
