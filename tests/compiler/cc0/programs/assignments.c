// Every assignment, to a local, a parameter, a global, an element, a place and a member.
struct pair { long one; struct pair *two; char *three; };
long global;
long many[4];
char bytes[8];
char *text;
void all(long *to, long by) {
    *to = by; number(*to); *to += by; number(*to); *to -= 3; number(*to); *to *= by + 1; number(*to); *to /= 2; number(*to); *to %= 7; number(*to);
    *to <<= 5; number(*to); *to >>= 1; number(*to); *to |= 6; number(*to); *to &= ~2; number(*to); *to ^= by; number(*to); line();
}
long parameter(long a, long b) { a += b; b = a * 2; a -= b; return a; }
long begin(long *stack) {
    long local; long other; long *p = many; struct pair *pair;
    all(&local, 5); all(&global, -9); all(many + 2, 100); all(&p[1], 77);
    local = 3; local += local; number(local); local -= 1; number(local); local *= local; number(local); local /= 4; number(local); local %= 4; number(local);
    local = 9; local <<= 3; number(local); local >>= 2; number(local); local |= 5; number(local); local &= 6; number(local); local ^= 15; number(local); line();
    global = 3; global += global; number(global); global -= 10; number(global); global *= global; number(global); global /= 3; number(global); line();
    many[1] = 4; many[1] += many[1]; number(many[1]); many[many[1] - 8] = 6; number(many[0]); many[3] = many[2] = many[1]; number(many[3]); line();
    local = other = global = 8; number(local + other + global); number(local = 5); number((local = 6) + local); number(local += 2); line();
    number(parameter(10, 3)); line();
    bytes[0] = 255; bytes[1] = 256; bytes[2] = -1; bytes[3] = 65; bytes[3] += 200; bytes[4] = bytes[3]; bytes[5] = 300 + 1; bytes[6] |= 129; bytes[6] <<= 1;
    local = 0; while (local < 8) { number(bytes[local]); local += 1; } line();
    number(local = bytes[1] = 511); number(bytes[1] += 2); number(bytes[2] / 2); number(bytes[2] > 0); line();
    text = bytes; *text = 66; text += 1; *text = 67; text[1] = 68; text -= 1; number(*text); number(bytes[1]); number(bytes[2]); number(text - bytes); line();
    pair = (struct pair *)many; pair->one = 11; pair->two = pair; pair->three = text; pair->two->one += 4; number(pair->one); pair->two->two->one <<= 2;
    number(many[0]); number(pair->three == bytes); pair->three += 2; number(*pair->three); *pair->three = 1; number(bytes[2]); pair->three[1] = 9; number(bytes[3]);
    line();
    p = &local; *p = 21; number(local); *p += *p; number(local); p = &p[0]; number(*p); *&local = 2; number(local); (local) = 3; number(local); line();
    return 0;
}
