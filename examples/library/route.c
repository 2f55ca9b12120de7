/* Prints a shortest path, its length first: route HIER FROM TO, with nodes from 1.
 *
 *     cc route.c -o route -ldomethyme */
#include <domethyme.h>

#include <inttypes.h>
#include <stdio.h>
#include <stdlib.h>

static int failed(uint32_t code)
{
    char text[DOMETHYME_TEXT];
    domethyme_text(code, text, sizeof text);
    fprintf(stderr, "route: %s\n", text);
    return 1;
}

int main(int count, char **words)
{
    FILE *file = count == 4 ? fopen(words[1], "rb") : NULL;
    if (file == NULL)
        return 2;
    fseek(file, 0, SEEK_END);
    size_t size = (size_t)ftell(file);
    rewind(file);
    uint8_t *bytes = malloc(size + 1);
    if (bytes == NULL || fread(bytes, 1, size, file) != size)
        return 2;
    fclose(file);

    domethyme handle = DOMETHYME_CLOSED;
    uint32_t code = domethyme_open(&handle, bytes, size);
    free(bytes);
    if (code != DOMETHYME_OK)
        return failed(code);

    uint32_t from = (uint32_t)atol(words[2]) - 1, to = (uint32_t)atol(words[3]) - 1, *nodes = NULL;
    size_t room = 0;
    domethyme_route_info route;
    uint32_t none = 0;
    while ((code = domethyme_route(&handle, from, to, &route, nodes ? nodes : &none, room)) == DOMETHYME_NO_ROOM) {
        free(nodes);
        nodes = malloc(route.nodes * sizeof *nodes);
        room = nodes ? route.nodes : 0;
        if (nodes == NULL)
            return failed(DOMETHYME_OUT_OF_MEMORY);
    }
    domethyme_close(&handle);
    if (code != DOMETHYME_OK)
        return failed(code);
    printf("%" PRIu64 ":", route.length);
    for (size_t place = 0; place < route.nodes; ++place)
        printf(" %" PRIu32, nodes[place] + 1);
    printf("\n");
    free(nodes);
    return 0;
}
