/* Builds the sheet of x + 1 in the field of x^3 + x + 1, and prints the normal coordinates of x^2 + x on it: 3. */
#include <stdio.h>

#include "sabrentuglio.h"

int main(void) {
    uint8_t sheet[1472];
    desk_issued built = desk_build(11, 3, sheet, sizeof sheet);
    if (built.number != 0) {
        printf("refused %llu %llu\n", (unsigned long long)built.number, (unsigned long long)built.place);
        return 1;
    }
    desk_value coordinates = desk_to_normal(sheet, 32 * built.degree, 6);
    printf("%llu\n", (unsigned long long)coordinates.value);
    return 0;
}
