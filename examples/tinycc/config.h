// What TinyCC's own `configure` would write: a compiler for 64-bit RISC-V from one source, without shared libraries, which looks for
// nothing in the folders of a system.
#define TCC_VERSION "0.9.27"
#define TCC_TARGET_RISCV64 1
#define CONFIG_TCC_STATIC 1
#define CONFIG_TCCBOOT 1
#define CONFIG_TCC_SYSROOT ""
#define ONE_SOURCE 1
