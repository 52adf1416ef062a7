/*
 * The dining philosophers of examples/philosophers.e as a model for SPIN: five philosophers, three meals each. A handler is
 * a process with a queue. Both forks are reserved at once, as soon as each has an empty queue and is reserved by
 * nobody; what is asked of a fork is put into its queue and not waited for.
 *
 *     spin -a philosophers.pml && cc -O2 -DSAFETY -o pan pan.c && ./pan -m1000000
 *
 * Without -DNOREDUCE SPIN leaves orders out, too.
 */

#define COUNT 5
#define MEALS 3

bool reserved[COUNT];
byte uses[COUNT];
chan queue[COUNT] = [4] of { bit };

#define is_free(fork) (!reserved[fork] && empty(queue[fork]))

proctype Fork(byte number) {
end:
    do
    :: atomic { queue[number] ? _ -> uses[number]++ }
    od
}

proctype Philosopher(byte left; byte right) {
    byte meals = 0;
    do
    :: meals < MEALS ->
        atomic { is_free(left) && is_free(right) -> reserved[left] = true; reserved[right] = true };
        queue[left] ! 0;
        queue[right] ! 0;
        atomic { reserved[left] = false; reserved[right] = false };
        meals++
    :: else -> break
    od
}

init {
    byte n;
    atomic {
        for (n : 0 .. COUNT - 1) {
            run Fork(n);
        }
        for (n : 0 .. COUNT - 1) {
            run Philosopher(n, (n + 1) % COUNT);
        }
    }
}
