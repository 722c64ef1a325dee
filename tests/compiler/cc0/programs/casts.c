// Casts, sizeof, and what a char becomes.
struct pair { long one; char *two; };
char bytes[16];
long begin(long *stack) {
    long i = 0; while (i < 16) { bytes[i] = 250 + i; i += 1; }
    long *wide = (long *)bytes; char *narrow = (char *)wide; number(narrow[3]); number((long)narrow == (long)wide); number(*(long *)(bytes + 8) >> 56); number((long)bytes[3] << 40); line();
    number(sizeof(long)); number(sizeof(char)); number(sizeof(char *)); number(sizeof(struct pair)); number(sizeof(struct pair **)); number(sizeof(long) * 3 + 1); line();
    *wide = 0x0102030405060708L; number(bytes[0]); number(bytes[7]); *(char *)wide = 0; number(*wide); ((struct pair *)bytes)->two = "two"; say(*(char **)(bytes + 8)); line();
    number((long)5); number((long)(5 + 2) * 3); number(-(long)4); number((long)-4); number(!(long)"x"); number((long)(char *)(long *)77); number(*(char *)(long)bytes); line();
    number(bytes[0] - 1); number(bytes[1] * bytes[2]); number(-bytes[3]); number(~bytes[4]); number(bytes[5] < 0); number(bytes[6] << 8 | bytes[7]); number(bytes[0] == 0); line();
    return (long)300;
}
