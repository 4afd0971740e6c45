/* Prints for each row a number of what it returns and writes for random arguments. `header.py
 * --program` writes it after the functions of the rows and their table, which is `rows`. */
#include <stdio.h>
#include <stdlib.h>

/* A random number of random length, or one near a power of two, or near a multiple of one. */
static uint64_t any(void) {
    static uint64_t s = 1;
    s ^= s << 13;
    s ^= s >> 7;
    s ^= s << 17;
    const uint64_t near = s >> 8 & 3, power = UINT64_C(1) << (s >> 16 & 63);
    switch (s & 7) {
    case 0: return power + near - 2;
    case 1: return near - power - 1;
    case 2: return near;
    case 3: return (s >> 32 & 15) * power + near - 2;
    case 4: return s >> 58;
    default: return s * UINT64_C(0x9E3779B97F4A7C15) >> (s >> 10 & 63);
    }
}

static uint64_t sum;
static void add(uint64_t number) { sum = (sum ^ number) * UINT64_C(0x100000001B3) + 1; }

int main(int count, char **words) {
    const long rounds = count > 1 ? atol(words[1]) : 10000;
    const uint64_t most = UINT64_MAX >> (count > 2 ? 64 - atol(words[2]) : 0);
    for (size_t k = 0; k < sizeof rows / sizeof rows[0]; k++) {
        for (long i = 0; i < rounds; i++) {
            uint64_t numbers[28] = {0}, result[2];
            uint8_t *bytes[2] = {NULL, NULL};
            size_t length[2] = {0, 0}, at = 0, texts = 0;
            int16_t coordinates[5];
            for (const char *it = rows[k].given; *it != 0; it++) {
                if (*it == 's') {
                    length[texts] = (size_t)(any() % 32);
                    bytes[texts] = (uint8_t *)malloc(length[texts]);
                    for (size_t b = 0; b < length[texts]; b++)
                        bytes[texts][b] = (uint8_t)(any() % 3 == 0 ? 0 : any());
                    numbers[at] = (uintptr_t)bytes[texts];
                    at += 2;
                    numbers[at] = length[texts++];
                } else if (*it == 'c') {
                    /* As many as the text has axes of 6 bytes. */
                    for (size_t b = 0; b < 5; b++)
                        coordinates[b] = (int16_t)any();
                    numbers[at] = (uintptr_t)coordinates;
                    at += 2;
                    numbers[at] = length[0] / 6;
                } else
                    numbers[at] = any() & (*it == 'z' ? most : UINT64_MAX);
                at += 2;
            }
            rows[k].call(numbers, result);
            add(result[0]);
            for (size_t t = 0; t < texts; t++) {
                for (size_t b = 0; b < length[t]; b++)
                    add(bytes[t][b]);
                free(bytes[t]);
            }
        }
        printf("%s: %016llx\n", rows[k].name, (unsigned long long)sum);
    }
    return 0;
}
