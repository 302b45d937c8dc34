/* errno of the calling thread, as Rattle's library `os` declares it. */
extern int *__errno_location(void);

int rattle_errno(void)
{
    return *__errno_location();
}

void rattle_set_errno(int number)
{
    *__errno_location() = number;
}
