/*
 * What a user of the installed header and library sees: their version, and a refusal with its reason.
 */
#include <mlhe.h>

#include <stdio.h>

int main(void) {
    size_t numbers[3];
    const uint8_t bytes[] = {'P', '5'};
    const int64_t answer = mlhe_read(bytes, sizeof bytes, numbers, 3);
    printf("%s, %d.%d.%d\n", MLHE_VERSION, MLHE_VERSION_MAJOR, MLHE_VERSION_MINOR, MLHE_VERSION_PATCH);
    printf("refused %d: %s\n", (int)-answer, mlhe_reason(answer));
    printf("%s; %s; %s\n", mlhe_reason(0), mlhe_reason(-21), mlhe_reason(INT64_MIN));
    return 0;
}
