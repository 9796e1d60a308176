/* The floor for the program: standard input read once, its newlines counted, as `wc -l` does. */
#include <stdint.h>
#include <stdio.h>
#include <unistd.h>

int main(void)
{
    static uint8_t window[65536];
    uint64_t lines = 0;
    ssize_t got;
    while ((got = read(0, window, sizeof window)) > 0)
        for (ssize_t i = 0; i < got; i++) lines += window[i] == '\n';
    printf("%llu\n", (unsigned long long)lines);
    return got < 0;
}
