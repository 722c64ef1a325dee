// Atomic variables: gcc makes instructions of them where the machine has these.
#include <stdatomic.h>
#include <stdio.h>

int main(void) {
    static atomic_long sum;
    static atomic_int flag = 1;
    for (long i = 1; i <= 100; i += 1)
        atomic_fetch_add(&sum, i);
    int was = 1;
    printf("%ld\n", atomic_load(&sum));
    printf("%d\n", atomic_compare_exchange_strong(&flag, &was, 5));
    printf("%d\n", atomic_exchange(&flag, 7));
    return 0;
}
