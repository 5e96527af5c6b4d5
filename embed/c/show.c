/* Asks the three questions about each file that is named, and prints the replies. */
#include "mirzhelo.h"
#include <stdio.h>

#define LONGEST_FILE 12308
#define MOST_EVENTS 512
#define MOST_ROWS 1024

static void print_bytes(const uint8_t *bytes, size_t count)
{
    for (size_t i = 0; i < count; i++)
        printf(" %d", bytes[i]);
    printf("\n");
}

static void print_refusal(uint32_t reply)
{
    printf("refused %u %u\n", (unsigned)MZ_CAUSE(reply), (unsigned)MZ_PLACE(reply));
}

static void show(const uint8_t *file, size_t size)
{
    uint8_t rules[MOST_EVENTS] = {0};
    uint8_t marks[MOST_ROWS] = {0};
    uint32_t verdict = mz_verdict(file, size, rules, sizeof rules);
    if (MZ_KIND(verdict) == MZ_REFUSED) {
        print_refusal(verdict);
    } else {
        size_t rows = file[14] | file[15] << 8;
        size_t events = file[18] | file[19] << 8;
        printf("%s %u:", MZ_KIND(verdict) == MZ_ILLEGAL ? "illegal" : "accepted", (unsigned)MZ_LENGTH(verdict));
        print_bytes(rules, events);
        uint32_t known = mz_knowledge(file, size, events, marks, sizeof marks);
        if (MZ_KIND(known) == MZ_REFUSED)
            print_refusal(known);
        printf("known:");
        print_bytes(marks, rows);
    }
    uint32_t fault = mz_fault(file, size);
    printf("fault: %u bytes at %u\n", (unsigned)MZ_SIZE(fault), (unsigned)MZ_START(fault));
}

int main(int count, char **names)
{
    static uint8_t file[LONGEST_FILE + 1];
    for (int i = 1; i < count; i++) {
        FILE *input = fopen(names[i], "rb");
        if (!input) {
            perror(names[i]);
            return 1;
        }
        size_t size = fread(file, 1, sizeof file, input);
        fclose(input);
        show(file, size);
    }
    return 0;
}
