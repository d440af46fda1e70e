/* Addresses by PCREL_HI20 and PCREL_LO12 from 2 GiB on; one high half serves several low halves. */
struct lock { long state; int tries; short code; char open; };
extern struct lock outer;
static struct lock doors[4] = { { 1, 2, 3, 4 } };
struct lock trunk;

int turn(int door, int code)
{
    struct lock *l = door < 4 ? &doors[door] : &trunk;
    l->tries++;
    trunk.tries += doors[1].state;
    if (l->code == code) {
        l->open = 1;
        outer.state = trunk.state;
        outer.code = 7;
    }
    return l->open;
}
