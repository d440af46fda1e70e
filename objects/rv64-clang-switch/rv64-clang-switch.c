/* A switch by a table of 32-bit addresses, below 2 GiB, and a table of values. */
extern int act(int);
int choose(int what)
{
    switch (what) {
    case 0: return act(5);
    case 1: return act(3) + 1;
    case 2: return act(8) - 7;
    case 3: return act(1) * 3;
    case 4: return act(9) / 5;
    case 5: return act(2) ^ 6;
    default: return -1;
    }
}
int value(unsigned what)
{
    switch (what) {
    case 0: return 1000; case 1: return 77; case 2: return -3;
    case 3: return 12; case 4: return 500; case 5: return 8;
    default: return 0;
    }
}
