/* What both files of lines.c have inside their functions. */
static inline unsigned mixed(unsigned value)
{
    for (unsigned turn = 0; turn < 3; turn++)
        value = value * 5 + (value >> 3);
    return value;
}

unsigned others(unsigned count);
