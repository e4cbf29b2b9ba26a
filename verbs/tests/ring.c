/* Ranks of MPI in a ring, each of which sends to the next one what it compares: messages from 1 octet to some 4 MB. */
#include <mpi.h>
#include <stdio.h>
#include <stdlib.h>

enum { MOST = 4000000, TIMES = 10 };

static unsigned char octet(int i, int rank, int time) {
    return (unsigned char)(i * 31 + rank + time);
}

/* Sends and receives so many octets: how many of them are wrong. */
static int turn(int n, int rank, int ranks, int time) {
    static unsigned char out[MOST], in[MOST];
    int from = (rank + ranks - 1) % ranks, wrong = 0;
    for (int i = 0; i < n; i++) out[i] = octet(i, rank, time);
    MPI_Sendrecv(out, n, MPI_BYTE, (rank + 1) % ranks, 7, in, n, MPI_BYTE, from, 7, MPI_COMM_WORLD, MPI_STATUS_IGNORE);
    for (int i = 0; i < n; i++) wrong += in[i] != octet(i, from, time);
    return wrong;
}

int main(int argc, char **argv) {
    int rank, ranks, wrong = 0, all;
    MPI_Init(&argc, &argv);
    MPI_Comm_rank(MPI_COMM_WORLD, &rank);
    MPI_Comm_size(MPI_COMM_WORLD, &ranks);
    for (int n = 1; n <= MOST; n *= 7)
        for (int time = 0; time < TIMES; time++) wrong += turn(n, rank, ranks, time);
    MPI_Allreduce(&wrong, &all, 1, MPI_INT, MPI_SUM, MPI_COMM_WORLD);
    if (rank == 0) printf("%d ranks, %d octets are wrong\n", ranks, all);
    MPI_Finalize();
    return all != 0;
}
