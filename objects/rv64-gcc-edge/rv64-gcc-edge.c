/* HI20 and LO12 in the last page below 2 GiB that LUI reaches. */
extern long outer[];
static long kept[4];
long limit = 40;
long *where[] = { kept + 3, &limit, outer };

long step(long by)
{
    kept[by & 3] += by;
    kept[3] ^= outer[1];
    return limit += kept[0];
}
