/* A switch by a table of addresses, below 2 GiB. */
extern int act(int);
int choose(int what)
{
    switch (what) {
    case 0: return act(5);
    case 1: return act(3) + 1;
    case 2: return act(8) - 7;
    case 3: return act(1) * 3;
    case 4: return act(9) / 5;
    case 5: return act(2) ^ 6;
    case 6: return act(7) | 8;
    case 9: return act(4) & 12;
    default: return -1;
    }
}
