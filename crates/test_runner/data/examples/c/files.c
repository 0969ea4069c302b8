/* Adds the lines of its tape to the file "lines", and counts that file's lines. It shows the files of a C library: one that is read and
   written, one that is there for this process only, and the descriptors. */
#include <fcntl.h>
#include <stdio.h>
#include <unistd.h>

int main(void)
{
    FILE *kept = fopen("lines", "a+"), *noted = tmpfile();
    char line[80];
    int count = 0, other;
    if (!kept || !noted)
        return 1;
    while (fgets(line, sizeof line, stdin))
        fputs(line, noted);
    printf("the tape: feof %d ferror %d\n", feof(stdin) != 0, ferror(stdin) != 0);
    rewind(noted);
    while (fgets(line, sizeof line, noted))
        fputs(line, kept);
    rewind(kept);
    while (fgets(line, sizeof line, kept))
        count++;
    printf("lines: %d\n", count);
    fclose(noted);
    other = open("other", O_WRONLY | O_CREAT | O_TRUNC, 0600);
    write(2, "a warning\n", 10);
    write(other, "data\n", 5);
    printf("descriptors: %d %d\n", fileno(kept), other);
    fprintf(kept, "%d lines\n", count);
    return 0;   /* where what is held back of a file is written */
}
