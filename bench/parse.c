/* Parses the standard input with expat, in blocks of 64 KiB, and does nothing else: the least that a reader can take. */
#include <expat.h>
#include <stdio.h>

static void start(void *count, const XML_Char *name, const XML_Char **attributes) {
    (void)name;
    (void)attributes;
    ++*(long *)count;
}

int main(void) {
    static char block[65536];
    long count = 0;
    XML_Parser parser = XML_ParserCreateNS(NULL, '|');
    XML_SetUserData(parser, &count);
    XML_SetElementHandler(parser, start, NULL);
    for (;;) {
        size_t length = fread(block, 1, sizeof block, stdin);
        int last = length < sizeof block;
        if (XML_Parse(parser, block, (int)length, last) != XML_STATUS_OK) return 1;
        if (last) break;
    }
    printf("%ld\n", count);
    return 0;
}
