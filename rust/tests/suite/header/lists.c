/* Prints the header's lists as a compiler has them, and the reason of every number. Fields are parted by `|`. */
#include "ruonfidd.h"

#include <stdio.h>

#define PRINT_REFUSAL(name, number, said, reason) printf("refusal|%s|%d|%s|%s\n", #name, (int)name, said, reason);
#define PRINT_RULE(name, number, said) printf("rule|%s|%d|%s\n", #name, (int)name, said);

int main(void) {
    printf("version|%s|%d|%d|%d\n", RUONFIDD_VERSION, RUONFIDD_VERSION_MAJOR, RUONFIDD_VERSION_MINOR,
           RUONFIDD_VERSION_PATCH);
    RUONFIDD_REFUSALS(PRINT_REFUSAL)
    RUONFIDD_RULES(PRINT_RULE)
    for (int number = 0; number <= UINT8_MAX; number++)
        printf("reason|%d|%s\n", number, ruonfidd_refusal_reason((uint8_t)number));
    printf("choice|%d|%d|%d\n", RUONFIDD_CHOICE_NONE, RUONFIDD_CHOICE_ACT, RUONFIDD_CHOICE_INSIDE);
    return 0;
}
