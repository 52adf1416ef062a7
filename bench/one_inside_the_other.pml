/*
 * The dining philosophers of one_inside_the_other.e as a model for SPIN: as in philosophers.pml, but the right fork is
 * reserved while the left one is held.
 *
 *     spin -a one_inside_the_other.pml && cc -O2 -DSAFETY -o pan pan.c && ./pan -m1000000 -E
 *
 * -E leaves deadlocks out, so that all states are visited; without it the first deadlock ends the search.
 */

#define COUNT 5
#define MEALS 3

bool reserved[COUNT];
byte uses[COUNT];
chan queue[COUNT] = [4] of { bit };

#define is_free(fork) (!reserved[fork] && empty(queue[fork]))

proctype Fork(byte number) {
end:
    do
    :: atomic { queue[number] ? _ -> uses[number]++ }
    od
}

proctype Philosopher(byte left; byte right) {
    byte meals = 0;
    do
    :: meals < MEALS ->
        atomic { is_free(left) -> reserved[left] = true };
        queue[left] ! 0;
        atomic { is_free(right) -> reserved[right] = true };
        queue[right] ! 0;
        reserved[right] = false;
        reserved[left] = false;
        meals++
    :: else -> break
    od
}

init {
    byte n;
    atomic {
        for (n : 0 .. COUNT - 1) {
            run Fork(n);
        }
        for (n : 0 .. COUNT - 1) {
            run Philosopher(n, (n + 1) % COUNT);
        }
    }
}
