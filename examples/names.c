/* A word's line, the word of that line, and a line that is none. */
#include "vp1_names.h"

#include <stdio.h>
#include <string.h>

static void read(const char *text)
{
    uint32_t word, answer = vp1_read_line((const uint8_t *)text, strlen(text), &word);

    printf("answer %u, word %08x: %s", answer, word, text);
}

int main(void)
{
    uint8_t line[VP1_LINE];
    uint32_t length, answer = vp1_write_line(0xcc181234, line, VP1_LINE, &length);

    printf("answer %u, %u bytes: %.*s", answer, length, (int)length, (const char *)line);
    read("setlo $a3 0x1234\n");
    read("setlo $a3 0x01234\n");
    return 0;
}
