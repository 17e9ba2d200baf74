/* A member of the lib group that another member needs. */

long library_base(void)
{
    return 40;
}
