/* A lock that opens for four digits and rests after three wrong tries. */
typedef unsigned int u32;
extern volatile u32 port;
extern u32 now(void);
static const u32 code[4] = { 3, 1, 4, 1 };
static u32 tries = 3, since;

int unlock(const u32 *typed)
{
    if (tries == 0 && now() - since < 60)
        return -1;
    for (u32 i = 0; i < 4; i++)
        if (typed[i] != code[i]) {
            tries = tries ? tries - 1 : 0;
            since = now();
            return 0;
        }
    tries = 3;
    return port = 1;
}
