/* Addresses by PCREL_HI20 and PCREL_LO12, from 2 GiB on. */
static int table[5] = { 5, 4, 3, 2, 1 };
static long total;
extern int outer[];

int mix(int i)
{
    table[i % 5] ^= outer[i];
    total += table[0];
    outer[2] = (int)total;
    return table[3] + (int)(total >> 32);
}
