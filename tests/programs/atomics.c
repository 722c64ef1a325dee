// Counts, lists and locks by atomic operations, as gcc makes them for the extension A and as loops of load-reserved and store-conditional.
//
//     atomics FILE..
//
// prints a line for each kind of operation, which says what the bytes of all files made of its number. It exits with 1 where two ways to
// one number differ, with 2 where a file cannot be read.

#include "guest.h"

static const char own_name[] = "atomics";

static word32 words[16];
static word64 longs[16];
static word32 lock;
static byte flag;

static void say(const char *name, word64 number) {
    byte digits[20];
    write_text(1, name);
    write_text(1, " ");
    write_bytes(1, digits, put_decimal(digits, number));
    write_text(1, "\n");
}

// The old number; the loop ends since a store-conditional right behind its load-reserved succeeds.
static word32 add_by_loop(word32 *at, word32 more) {
    word64 old, sum, failed;
    __asm__ volatile("1: lr.w.aq %0, (%3)\n"
                     "   addw %1, %0, %4\n"
                     "   sc.w.rl %2, %1, (%3)\n"
                     "   bnez %2, 1b\n"
                     : "=&r"(old), "=&r"(sum), "=&r"(failed)
                     : "r"(at), "r"(more)
                     : "memory");
    return old;
}

static word64 greatest_by_loop(word64 *at, word64 other) {
    word64 old, failed;
    __asm__ volatile("1: lr.d %0, (%2)\n"
                     "   bgeu %0, %3, 2f\n"
                     "   sc.d.aqrl %1, %3, (%2)\n"
                     "   bnez %1, 1b\n"
                     "2:\n"
                     : "=&r"(old), "=&r"(failed)
                     : "r"(at), "r"(other)
                     : "memory");
    return old;
}

// A store-conditional without a load-reserved before it fails, and so does a second one.
static word64 failures(void) {
    word64 first, second, third, old;
    __asm__ volatile("   sc.d %0, zero, (%4)\n"
                     "   lr.d %3, (%4)\n"
                     "   sc.d %1, %3, (%4)\n"
                     "   sc.d %2, zero, (%4)\n"
                     : "=&r"(first), "=&r"(second), "=&r"(third), "=&r"(old)
                     : "r"(&longs[15])
                     : "memory");
    return 100 * first + 10 * second + third;
}

static void take(void) {
    while (__atomic_exchange_n(&lock, 1, __ATOMIC_ACQUIRE) != 0) {
    }
}

static void give(void) { __atomic_store_n(&lock, 0, __ATOMIC_RELEASE); }

static void count(const byte *bytes, word64 length) {
    for (word64 i = 0; i < length; i += 1) {
        word32 one = bytes[i];
        long signed_one = (signed char)bytes[i];
        take();
        __atomic_fetch_add(&words[0], one, __ATOMIC_SEQ_CST);
        add_by_loop(&words[1], one);
        __atomic_fetch_sub(&words[2], one * 0x01010101u, __ATOMIC_RELAXED);
        __atomic_fetch_xor(&words[3], one << i % 25, __ATOMIC_ACQ_REL);
        __atomic_fetch_or(&words[4], 1u << one % 32, __ATOMIC_RELEASE);
        __atomic_fetch_and(&words[5], ~(1u << one % 32), __ATOMIC_CONSUME);
        __atomic_fetch_add(&longs[0], one * 0x0101010101010101u, __ATOMIC_SEQ_CST);
        __atomic_fetch_xor(&longs[1], (word64)one << i % 57, __ATOMIC_ACQUIRE);
        greatest_by_loop(&longs[2], one);
        give();
        long least;
        __asm__ volatile("amomin.d %0, %2, (%1)\n   amomax.d.aq zero, %2, (%3)\n   amominu.d.rl zero, %2, (%4)\n"
                         "   amomaxu.d.aqrl zero, %2, (%5)\n   amomin.w zero, %2, (%6)\n   amomax.w zero, %2, (%7)\n"
                         "   amominu.w zero, %2, (%8)\n   amomaxu.w zero, %2, (%9)\n"
                         : "=&r"(least)
                         : "r"(&longs[3]), "r"(signed_one), "r"(&longs[4]), "r"(&longs[5]), "r"(&longs[6]), "r"(&words[6]), "r"(&words[7]),
                           "r"(&words[8]), "r"(&words[9])
                         : "memory");
        // A compare and exchange, which gcc makes a loop of: the greatest byte once more.
        word64 seen = __atomic_load_n(&longs[7], __ATOMIC_RELAXED);
        while (seen < one && !__atomic_compare_exchange_n(&longs[7], &seen, one, 0, __ATOMIC_SEQ_CST, __ATOMIC_RELAXED)) {
        }
        // A byte of its own, which gcc changes within its word.
        if (!__atomic_test_and_set(&flag, __ATOMIC_SEQ_CST))
            words[10] += 1;
        __atomic_clear(&flag, __ATOMIC_SEQ_CST);
    }
}

static int run(long files, char **names_of) {
    static byte block[512];
    words[5] = ~0u;
    longs[5] = ~0ul;
    words[8] = ~0u;
    for (long i = 0; i < files; i += 1) {
        long file = open_file(names_of[i], O_RDONLY);
        long length = file < 0 ? file : read_bytes(file, block, sizeof block);
        while (length > 0) {
            count(block, length);
            length = read_bytes(file, block, sizeof block);
        }
        if (length < 0) {
            say_error(names_of[i], length);
            return 2;
        }
        close_file(file);
    }
    static const char *const names[] = {"sum", "sum by a loop", "difference", "exclusive or", "or", "and", "least word", "greatest word",
                                        "least unsigned word", "greatest unsigned word", "set"};
    static const char *const long_names[] = {"long sum", "long exclusive or", "greatest by a loop", "least", "greatest", "least unsigned",
                                             "greatest unsigned", "greatest by exchange"};
    for (word64 i = 0; i < sizeof names / sizeof *names; i += 1)
        say(names[i], words[i]);
    for (word64 i = 0; i < sizeof long_names / sizeof *long_names; i += 1)
        say(long_names[i], longs[i]);
    say("failures", failures());
    return words[0] != words[1] || longs[2] != longs[7];
}
