/* Parses and computes expressions with variables, by recursive descent, and prints their values. */
typedef unsigned int u32;
typedef int s32;
static const char *src;
static s32 vars[26];
static char out[64];
static void space(void) {
    while (*src == ' ')
        src++;
}
static s32 expr(void);
static s32 factor(void) {
    space();
    if (*src == '(') {
        src++;
        s32 v = expr();
        space();
        if (*src == ')')
            src++;
        return v;
    }
    if (*src == '-') {
        src++;
        return -factor();
    }
    if (*src >= 'a' && *src <= 'z')
        return vars[*src++ - 'a'];
    s32 v = 0;
    if (*src == '0' && src[1] == 'x') {
        src += 2;
        for (;;) {
            char c = *src;
            if (c >= '0' && c <= '9')
                v = v * 16 + c - '0';
            else if (c >= 'a' && c <= 'f')
                v = v * 16 + c - 'a' + 10;
            else
                break;
            src++;
        }
        return v;
    }
    while (*src >= '0' && *src <= '9')
        v = v * 10 + (*src++ - '0');
    return v;
}
static s32 term(void) {
    s32 v = factor();
    for (;;) {
        space();
        if (*src == '*') {
            src++;
            v *= factor();
        } else if (*src == '/') {
            src++;
            s32 d = factor();
            v = d ? v / d : 0;
        } else if (*src == '%') {
            src++;
            s32 d = factor();
            v = d ? v % d : 0;
        } else
            return v;
    }
}
static s32 expr(void) {
    s32 v = term();
    for (;;) {
        space();
        if (*src == '+') {
            src++;
            v += term();
        } else if (*src == '-') {
            src++;
            v -= term();
        } else
            return v;
    }
}
static int print(s32 v) {
    char t[12];
    int n = 0, k = 0;
    u32 u = v;
    if (v < 0) {
        out[k++] = '-';
        u = -v;
    }
    do {
        t[n++] = '0' + u % 10;
        u /= 10;
    } while (u);
    while (n)
        out[k++] = t[--n];
    out[k] = 0;
    return k;
}
static void statement(const char *s) {
    src = s;
    space();
    if (src[0] >= 'a' && src[0] <= 'z') {
        const char *p = src + 1;
        while (*p == ' ')
            p++;
        if (*p == '=') {
            int i = *src - 'a';
            src = p + 1;
            vars[i] = expr();
            return;
        }
    }
    vars[25] = expr();
}
static const char *const lines[] = {"a = 3 * (4 + 5) - 6 / 2",
                                    "b = a * a + 0xff % 7",
                                    "c = (a + b) * -(3 - 0x1f) / (b - a + 1)",
                                    "d = ((((1 + 2) * 3 + 4) * 5 + 6) * 7 + a)",
                                    "e = 1234567 % 891 + d / 3 - c * 2",
                                    "f = - - - 42 + ( e )",
                                    "g=a+b+c+d+e+f",
                                    "a + b * c - d / (e % 7 + 1)"};
int main(void) {
    u32 h = 0;
    for (int r = 0; r < 500; r++)
        for (int i = 0; i < 8; i++) {
            statement(lines[i]);
            int n = print(vars[i % 7]);
            for (int j = 0; j < n; j++)
                h = h * 31 + out[j];
        }
    return h & 0x7f;
}
