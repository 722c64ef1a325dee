// Macros: the standard's own examples, names that hide themselves, arguments, # and ##, conditions, lines that are joined.
#include <stdio.h>
#include <string.h>

int SELF = 10, ONE = 20;

#define TABSIZE 100
int table[TABSIZE];

#define max(a, b) ((a) > (b) ? (a) : (b))

#define x 3
#define f(a) f(x * (a))
#undef x
#define x 2
#define g f
#define z z[0]
#define h g(~
#define m(a) a(w)
#define w 0, 1
#define t(a) a
#define p() int
#define q(x) x
#define r(x, y) x##y
#define str(x) #x
#define show(text) printf("%s\n", show_text(text))
#define show_text(text) #text

#define xstr(s) str(s)
#define debug(s, t) printf("x" #s "= %d, x" #t "= %s\n", x##s, x##t)
#define INCFILE(n) vers##n
#define glue(a, b) a##b
#define xglue(a, b) glue(a, b)
#define HIGHLOW "hello"
#define LOW LOW ", world"
#define OBJ_LIKE (1-1)
#define FUNC_LIKE(a) ( a )
#define EMPTY
#define NOTHING()
#define LPAREN (
#define RPAREN )
#define F(x, y) x + y
#define ELLIP_FUNC() F
#define SELF (4 + SELF)
#define ONE TWO
#define TWO ONE
#define call(function, argument) function(argument)
#define twice(v) ((v) * 2)
#define cat3(a, b, c) a##b##c
#define long_one(a, \
                 b) \
    ((a) + \
     (b))
#define with_text "a // no comment" /* a comment */ " b"
#define quoted '"'
#define member(name) .name
#define list EACH(one) EACH(two) EACH(three)
#define text_of(v) #v

#if defined TABSIZE && !defined(NOWHERE) && (TABSIZE >= 100 || UNKNOWN) && TABSIZE != 99
#define CHOSEN 1
#elif 1
#error not here
#else
#error nor here
#endif

#ifdef NOWHERE
don't look "at this
#if 1
#else
# garbage ' isn't here
/* a comment that goes on
#endif here
*/
#endif
#elif TABSIZE == 100 /* a comment
over lines */ && 1 // and one
int chosen_branch = 5;
#else
#error no
#endif

#ifndef NOWHERE
# define SPACED( a ) a
#  ifdef CHOSEN
#    if 0
#    elif 0 || 0
#    else
int nested = 6;
#    endif
#  endif
#endif
#if UNKNOWN_NAME == 0 && -1 < 0 && 2 * 3 + 1 == 7 && !(0x10 != 16)
int numbers = 7;
#endif
#

int x1 = 1;
char *x2 = "two";
int zz = 5;
#undef z
#define foo foo_value
int foo_value = 11;
struct { int foo, bar; } record = { 8, 9 };

/* a comment */ /**/ int/**/spaced/* between */=/***/9; // the end \
int not_here = spaced_nowhere;

#define EACH(name) int name##_value = sizeof(#name);
list
#undef EACH
#define EACH(name) total += name##_value;

int main(void) {
    int total = 0;
    int glued12 = 12;
    char *hello_text = "glued";
    show(f(y+1) + f(f(z)) % t(t(g)(0) + t)(1););
    show(g(x+(3,4)-w) & t(g)(2) ^ m(f););
    show((p() i[q()] = { q(1), r(2,3), r(4,), r(,5), r(,) };));
    show((char c[2][6] = { str(hello), str() };));
    debug(1, 2);
    printf("%s|%s|%s\n", str(strncmp("abc\0d", "abc", '\4') == 0), str(: @\n), xstr(INCFILE(2).c));
    printf("%s|%s\n", glue(HIGH, LOW), xglue(HIGH, LOW) "");
    printf("%s|%s|%s|%s\n", text_of( a  +  b ), text_of("a\tb" 'c'), text_of(), xstr(with_text));
    printf("%d %d %d %d\n", max(3, 4), max(max(1, 7), 2), long_one(5, 6), twice(long_one(1, twice(2))));
    printf("%d %d %d %d\n", (SELF), ONE, call(twice, 8), call(twice, call(twice, 3)));
    printf("%d %d %s %s\n", cat3(gl, ued, 12), FUNC_LIKE(OBJ_LIKE), cat3(hello, _, text), quoted == '"' ? "quote" : "none");
    printf("%d %d %d\n", record member(foo), (NOTHING() 3), SPACED(4) SPACED(+ 5));
    show(ELLIP_FUNC LPAREN RPAREN (1, 2));
    show(ELLIP_FUNC() (1, 2) F F (3, (4, 5)) F
        (6,
         7));
    list
    printf("%d %d %d %d %d %d\n", total, chosen_branch, nested, numbers, spaced, CHOSEN);
    printf("%d %d %s %d\n", __LINE__, xglue(__LI, NE__) + 0, str(__LINE__), __STDC__);
#if __LINE__ < 100 || __STDC_VERSION__ < 199901L
    puts("a line that is wrong");
#endif
    show((__FILE__ __LINE__));
    printf("%s\n", __FILE__ + sizeof(__FILE__) - sizeof("table/preprocessor.c"));
    printf("%s %s %d\n", __func__, __FUNCTION__, (int)sizeof __func__);
    return TABSIZE \
        - 99;
}
