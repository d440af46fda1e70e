/* Position-independent code with hidden symbols: a switch by a table of distances. */
#pragma GCC visibility push(hidden)
extern int act(int);
extern long state;
static long last;
long choose(int what)
{
    last = what;
    switch (what) {
    case 0: return act(5) + state;
    case 1: return act(3) + 1;
    case 2: return act(8) - 7;
    case 3: return act(1) * 3;
    case 4: return act(9) / 5;
    case 5: return act(2) ^ 6;
    case 7: return act(7) | 8;
    default: return last;
    }
}
