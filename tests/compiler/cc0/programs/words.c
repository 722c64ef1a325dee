// Numbers, characters, texts, names and comments.
long a_1_Zz;//close to the name
long _underscore;long x1;
long begin(long *stack) {
    number(0); number(7); number(2147483647); number(2147483648L); number(9223372036854775807L); number(0L); number(12L); line();
    number(0x0); number(0x7F); number(0xabcdef); number(0xABCDEF); number(0x7fffffff); number(0x80000000L); number(0x7fffffffffffffffL); line();
    number(2047); number(2048); number(-2048); number(-2049); number(4095); number(4096); number(0xfffff000L); number(0x7ffff800); line();
    number('a'); number(' '); number('~'); number('\n'); number('\t'); number('\r'); number('\0'); number('\\'); number('\''); number('\"'); number('"'); line();
    say("text, \"quoted\", 'quoted' and \\ and tab\tand"); say(" // no comment, "); say(""); say("x\n");
    char *text = "a\0b\n\t\r\\\'\"z";
    long i = 0;
    while (i < 11) { number(text[i]); i += 1; }
    line();
    text = "über€";
    while (*text != 0) { number(*text); text += 1; }
    line();
    number('\0' + "abcd"[3]); number(*"q");
    a_1_Zz = 1; _underscore = 2; x1 = 3; number(a_1_Zz); number(_underscore); number(x1); // a comment with \n and "
    // a comment with \\.
	line();	// tabs
    ////
    //
    number(1)
    ;
    line();
    return 0;
} //
