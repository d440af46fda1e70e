/* The code model of any address at the end of the address space; pairs that go over the top. */
extern int outer(int);
extern unsigned port[];
static long kept[2] = { 1, 2 };
long room[3];

long step(long by)
{
    kept[by & 1] += by;
    room[by % 3] = kept[0];
    port[2] = kept[1];
    return outer(room[0]);
}
