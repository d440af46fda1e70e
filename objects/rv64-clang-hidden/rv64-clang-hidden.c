/* Position-independent code: CALL_PLT, and a switch by a table of distances. */
extern int act(int);
static int last;
int choose(int what)
{
    last = what;
    switch (what) {
    case 0: return act(5);
    case 1: return act(3) + 1;
    case 2: return act(8) - 7;
    case 3: return act(1) * 3;
    case 4: return act(9) / 5;
    case 5: return act(2) ^ 6;
    default: return last;
    }
}
