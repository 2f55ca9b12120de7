/* Prints a table of lengths, a row for each source, with - for no path: table HIER SOURCE.. : TARGET.., with nodes from 1.
 *
 *     cc table.c -o table -ldomethyme */
#include <domethyme.h>

#include <inttypes.h>
#include <stdio.h>
#include <stdlib.h>
#include <string.h>

static int failed(uint32_t code)
{
    char text[DOMETHYME_TEXT];
    domethyme_text(code, text, sizeof text);
    fprintf(stderr, "table: %s\n", text);
    return 1;
}

int main(int count, char **words)
{
    FILE *file = count > 2 ? fopen(words[1], "rb") : NULL;
    if (file == NULL)
        return 2;
    fseek(file, 0, SEEK_END);
    size_t size = (size_t)ftell(file);
    rewind(file);
    uint8_t *bytes = malloc(size + 1);
    if (bytes == NULL || fread(bytes, 1, size, file) != size)
        return 2;
    fclose(file);

    domethyme handle = DOMETHYME_CLOSED;
    uint32_t code = domethyme_open(&handle, bytes, size);
    free(bytes);
    if (code != DOMETHYME_OK)
        return failed(code);

    uint32_t *nodes = malloc((size_t)count * sizeof *nodes);
    size_t sources = 0, all = 0;
    for (int word = 2; nodes != NULL && word < count; ++word)
        if (strcmp(words[word], ":") == 0)
            sources = all;
        else
            nodes[all++] = (uint32_t)atol(words[word]) - 1;
    size_t targets = all - sources, room = sources * targets;
    uint64_t *lengths = malloc((room + 1) * sizeof *lengths);
    if (nodes == NULL || lengths == NULL)
        return failed(DOMETHYME_OUT_OF_MEMORY);
    code = domethyme_table(&handle, nodes, sources, nodes + sources, targets, lengths, room);
    domethyme_close(&handle);
    if (code != DOMETHYME_OK)
        return failed(code);

    for (size_t cell = 0; cell < room; ++cell) {
        if (lengths[cell] == DOMETHYME_NO_LENGTH)
            printf("-");
        else
            printf("%" PRIu64, lengths[cell]);
        printf((cell + 1) % targets == 0 ? "\n" : " ");
    }
    free(nodes);
    free(lengths);
    return 0;
}
