/* A member of the lib group that nothing needs: it defines what the program defines, too. */

long library_base_of_nobody(void)
{
    return 1;
}

long constructed(void)
{
    return -1;
}
