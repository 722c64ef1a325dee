// What TinyCC's own `configure` would write on Debian: a compiler for x86-64 Linux from one source, linked with glibc, which can also run what it made. It
// defines __linux__ in what it compiles, on whatever machine it was made.
#define TCC_VERSION "0.9.27"
#define TCC_TARGET_X86_64 1
#define TCC_IS_NATIVE 1
#define CONFIG_TRIPLET "x86_64-linux-gnu"
#define CONFIG_TCCDIR "/usr/lib/x86_64-linux-gnu/tcc"
#define ONE_SOURCE 1
#define __linux__ 1
