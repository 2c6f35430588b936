/* Times libfec's Reed-Solomon coder and decoder on rows of 207 bytes with 20 parity bytes, for comparison with ours. */
#include <fec.h>
#include <stdio.h>
#include <stdlib.h>
#include <string.h>
#include <time.h>

enum { ROW = 207, PARITY = 20, DATA = ROW - PARITY, ROWS = 4096 };

static unsigned char rows[ROWS][ROW], sent[ROWS][ROW];

static double seconds(void)
{
    struct timespec t;
    clock_gettime(CLOCK_MONOTONIC, &t);
    return t.tv_sec + t.tv_nsec * 1e-9;
}

static unsigned long state = 88172645463325252UL;

static unsigned int draw(void)
{
    state ^= state << 13;
    state ^= state >> 7;
    state ^= state << 17;
    return state >> 11;
}

static void report(const char *work, double best)
{
    printf("libfec %-22s %10.0f rows/s\n", work, ROWS / best);
}

static void damage(int wrong)
{
    memcpy(rows, sent, sizeof rows);
    for (int i = 0; i < ROWS; i++) {
        int first = draw() % ROW;
        for (int k = 0; k < wrong; k++)
            rows[i][(first + 17 * k) % ROW] ^= 1 + draw() % 255;
    }
}

int main(void)
{
    void *rs = init_rs_char(8, 0x11d, 0, 1, PARITY, 255 - ROW);
    const int counts[] = { 0, 1, 5, 10, 11 };
    double best = 1e9;
    if (!rs)
        return 1;
    for (int i = 0; i < ROWS; i++)
        for (int j = 0; j < DATA; j++)
            rows[i][j] = draw();
    for (int turn = 0; turn < 5; turn++) {
        double start = seconds();
        for (int i = 0; i < ROWS; i++)
            encode_rs_char(rs, rows[i], rows[i] + DATA);
        double took = seconds() - start;
        if (took < best)
            best = took;
    }
    report("complete", best);
    memcpy(sent, rows, sizeof sent);
    for (unsigned c = 0; c < sizeof counts / sizeof *counts; c++) {
        char work[32];
        best = 1e9;
        for (int turn = 0; turn < 5; turn++) {
            damage(counts[c]);
            double start = seconds();
            for (int i = 0; i < ROWS; i++)
                decode_rs_char(rs, rows[i], NULL, 0);
            double took = seconds() - start;
            if (took < best)
                best = took;
        }
        snprintf(work, sizeof work, "mend %d wrong", counts[c]);
        report(work, best);
    }
    return 0;
}
