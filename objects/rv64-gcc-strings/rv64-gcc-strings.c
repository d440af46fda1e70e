/* Strings in a section of strings, and a table of them. */
extern void say(const char *);
static const char *const names[] = { "driver", "passenger", "rear left", "tailgate" };
void tell(unsigned door)
{
    say("door ");
    say(door < 4 ? names[door] : "none");
}
