/* Reads what the cab program reads, a line from standard input and the two files, and says how much
 * it read. What the cab program takes beyond it is the planner's. */
#include <fcntl.h>
#include <stdio.h>
#include <unistd.h>

static char line[64];
static char nodes[4 * 2048 + 1];
static char roads[8 * 8192 + 1];

/* Fills the buffer as far as the input goes; the number of bytes, or -1. */
static long fill(int fd, char *buffer, size_t size)
{
    size_t had = 0;
    while (had < size) {
        ssize_t got = read(fd, buffer + had, size - had);
        if (got < 0)
            return -1;
        if (got == 0)
            break;
        had += (size_t)got;
    }
    return (long)had;
}

static long fill_from(const char *name, char *buffer, size_t size)
{
    int fd = open(name, O_RDONLY);
    long had = fd < 0 ? -1 : fill(fd, buffer, size);
    if (fd >= 0)
        close(fd);
    return had;
}

int main(void)
{
    long asked = fill(STDIN_FILENO, line, sizeof line);
    long from_nodes = fill_from("nodes.bin", nodes, sizeof nodes);
    long from_roads = fill_from("roads.bin", roads, sizeof roads);
    printf("%ld %ld %ld\n", asked, from_nodes, from_roads);
    return asked < 0 || from_nodes < 0 || from_roads < 0;
}
