/* Interprets the code of a stack machine, and a program for a tape of bytes. */
typedef unsigned int u32;
typedef int s32;
typedef unsigned char u8;
enum { PUSH, ADD, SUB, MUL, LT, JZ, JMP, LOADV, STOREV, DUP, DROP, CALL, RET, MOD, EQ, HALT };
static const s32 program[] = {
    PUSH,  0,    STOREV,       0,     PUSH, 1,    STOREV, 1,      LOADV, 1,   PUSH,     4000,
    LT,    JZ,   46,           LOADV, 1,    CALL, 50,     LOADV,  0,     ADD, STOREV,   0,
    LOADV, 1,    PUSH,         3,     MOD,  PUSH, 0,      EQ,     JZ,    38,  LOADV,    0,
    PUSH,  7,    /*38*/ LOADV, 1,     PUSH, 1,    ADD,    STOREV, 1,     JMP, /*46*/ 8, HALT,
    HALT,  HALT, /*50*/ DUP,   MUL,   PUSH, 13,   MOD,    RET};
static s32 stack[4096], vars[16], calls[64];
static s32 go(void) {
    const s32 *pc = program;
    s32 *sp = stack;
    int depth = 0;
    u32 steps = 0;
    for (;;) {
        if (++steps > 200000)
            return steps;
        switch (*pc++) {
        case PUSH:
            *sp++ = *pc++;
            break;
        case ADD:
            sp--;
            sp[-1] += sp[0];
            break;
        case SUB:
            sp--;
            sp[-1] -= sp[0];
            break;
        case MUL:
            sp--;
            sp[-1] *= sp[0];
            break;
        case LT:
            sp--;
            sp[-1] = sp[-1] < sp[0];
            break;
        case EQ:
            sp--;
            sp[-1] = sp[-1] == sp[0];
            break;
        case MOD:
            sp--;
            sp[-1] = sp[0] ? sp[-1] % sp[0] : 0;
            break;
        case JZ:
            if (!*--sp)
                pc = program + *pc;
            else
                pc++;
            break;
        case JMP:
            pc = program + *pc;
            break;
        case LOADV:
            *sp++ = vars[*pc++];
            break;
        case STOREV:
            vars[*pc++] = *--sp;
            break;
        case DUP:
            *sp = sp[-1];
            sp++;
            break;
        case DROP:
            sp--;
            break;
        case CALL:
            calls[depth++] = pc + 1 - program;
            pc = program + *pc;
            break;
        case RET:
            pc = program + calls[--depth];
            break;
        default:
            return vars[0] + sp - stack;
        }
        if (sp - stack > 4000)
            sp = stack;
    }
}
static u8 tape[512];
static const char *const code = "++++++++[>++++[>++>+++>+++>+<<<<-]>+>+>->>+[<]<-]>>.>---.+++++++..+++.>>.<-."
                                "<.+++.------.--------.>>+.>++.";
static u32 bf(void) {
    const char *p = code;
    u32 at = 0, sum = 0;
    for (int i = 0; i < 512; i++)
        tape[i] = 0;
    while (*p) {
        switch (*p) {
        case '>':
            at++;
            break;
        case '<':
            at--;
            break;
        case '+':
            tape[at]++;
            break;
        case '-':
            tape[at]--;
            break;
        case '.':
            sum = sum * 17 + tape[at];
            break;
        case '[':
            if (!tape[at]) {
                int d = 1;
                while (d) {
                    p++;
                    d += (*p == '[') - (*p == ']');
                }
            }
            break;
        case ']':
            if (tape[at]) {
                int d = 1;
                while (d) {
                    p--;
                    d += (*p == ']') - (*p == '[');
                }
            }
            break;
        }
        p++;
    }
    return sum;
}
int main(void) {
    u32 h = 0;
    for (int i = 0; i < 3; i++)
        h += go();
    for (int i = 0; i < 60; i++)
        h ^= bf() + i;
    return h & 0x7f;
}
