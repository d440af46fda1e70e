/* A door that another module's lock opens. */
extern int unlock(const unsigned *typed);

int pull(const unsigned *typed, int handle)
{
    return handle && unlock(typed) == 1;
}
