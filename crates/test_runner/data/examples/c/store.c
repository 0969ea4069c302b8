/* A store of keys and values in one file, which survives any crash: each change writes the whole store to another file, and then
   renames that. So at every moment the file `store` is whole, as before the change or as after it. A sync before the renaming and one
   after it keep that true on other systems too. A line of the tape is
   `set KEY VALUE`, `get KEY` or `list`. What it answers to a `set` shows once the change is on the disk. */
#include "calls.h"

enum { MOST = 8192 };
static char store[MOST + 1];   /* lines of a key, a blank and a value */
static int used;
static char line[256];

static void say(const char *text, int n)
{
    while (n > 0) {
        int m = sys_write(1, text, n < MOST_BYTES ? n : MOST_BYTES);
        if (m <= 0)
            sys_exit(1);
        text += m;
        n -= m;
    }
}

static void tell(const char *text)
{
    say(text, length_of(text));
}

/* Reads the store, if there is one. */
static void load(void)
{
    int file = sys_open("store", READ_FILE), n;
    if (file < 0)
        return;
    while (used < MOST && (n = sys_read(file, store + used, MOST - used < MOST_BYTES ? MOST - used : MOST_BYTES)) > 0)
        used += n;
    sys_close(file);
}

/* Writes the store anew, and gives it its name when it is whole. */
static void save(void)
{
    int file = sys_open("store.new", NEW_FILE), from = 0;
    while (from < used) {
        int rest = used - from, n = sys_write(file, store + from, rest < MOST_BYTES ? rest : MOST_BYTES);
        if (n <= 0)
            sys_exit(1);
        from += n;
    }
    sys_close(file);
    sys_sync();
    if (sys_rename("store.new", "store") < 0)
        sys_exit(1);
    sys_sync();
}

static int line_length(const char *at)
{
    int n = 0;
    while (at[n] != '\n')
        n++;
    return n + 1;
}

/* Where the line of a key begins; the end of the store where there is none. */
static int find(const char *key)
{
    int at = 0, n = length_of(key);
    while (at < used) {
        int i = 0;
        while (i < n && store[at + i] == key[i])
            i++;
        if (i == n && store[at + n] == ' ')
            return at;
        at += line_length(store + at);
    }
    return used;
}

static void set(const char *key, const char *value)
{
    int at = find(key), k = length_of(key), v = length_of(value), i;
    if (at < used) {
        int n = line_length(store + at);
        for (i = at; i + n < used; i++)
            store[i] = store[i + n];
        used -= n;
    }
    if (used + k + v + 2 > MOST) {
        tell("full\n");
        return;
    }
    for (i = 0; i < k; i++)
        store[used++] = key[i];
    store[used++] = ' ';
    for (i = 0; i < v; i++)
        store[used++] = value[i];
    store[used++] = '\n';
    save();
    tell("ok\n");
}

static void get(const char *key)
{
    int at = find(key), k = length_of(key);
    if (at == used)
        tell("none\n");
    else
        say(store + at + k + 1, line_length(store + at) - k - 1);
}

/* Ends the word at a place, and gives the place after it. */
static char *after_word(char *at)
{
    while (*at && *at != ' ')
        at++;
    if (*at)
        *at++ = 0;
    return at;
}

static int is_word(const char *word, const char *other)
{
    while (*word && *word == *other)
        word++, other++;
    return *word == *other;
}

static void obey(void)
{
    char *first = line, *second = after_word(first), *third = after_word(second);
    if (is_word(first, "set") && *second && *third)
        set(second, third);
    else if (is_word(first, "get") && *second)
        get(second);
    else if (is_word(first, "list"))
        say(store, used);
    else
        tell("set KEY VALUE, get KEY or list\n");
}

int main(void)
{
    int n = 0;
    char c;
    load();
    while (sys_read(0, &c, 1) == 1) {
        if (c == '\n') {
            line[n] = 0;
            obey();
            n = 0;
        } else if (n < (int)sizeof line - 1) {
            line[n++] = c;
        }
    }
    return 0;
}
