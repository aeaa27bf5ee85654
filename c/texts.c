/* Tests hulmbax_refusal_text and the version macro, and prints the version. */
#include "hulmbax.h"

#include <stdio.h>
#include <string.h>

#define TEXT(x) #x
#define EXPANDED(x) TEXT(x)

static int failures;

static void expect(int holds, const char *what, int32_t number)
{
    if (!holds) {
        printf("%s, of %ld\n", what, (long)number);
        failures++;
    }
}

/* Whether a number is a refusal's. */
static int is_refusal(int32_t number)
{
    return (number >= HULMBAX_WORKSPACE_TOO_SHORT && number <= HULMBAX_RESULT_TOO_LONG)
           || number == HULMBAX_TOO_MANY_FRAMES || number == HULMBAX_NO_FINISH
           || number == HULMBAX_MILLIS_ON_DATE || number == HULMBAX_OUTSIDE_CALENDAR
           || number == HULMBAX_NOT_A_NUMBER;
}

int main(void)
{
    const char *none = hulmbax_refusal_text(0);
    const int32_t others[] = {-128, 65535, INT32_MAX, INT32_MIN};
    const char *version =
        EXPANDED(HULMBAX_VERSION_MAJOR) "." EXPANDED(HULMBAX_VERSION_MINOR) "." EXPANDED(HULMBAX_VERSION_PATCH);

    for (int32_t k = 1; k <= 127; k++) {
        const char *text = hulmbax_refusal_text(k);
        expect(strlen(text) > 20, "no sentence", k);
        expect((strcmp(text, none) != 0) == is_refusal(k), "the sentence of a refusal, or that of none", k);
        expect(strcmp(hulmbax_refusal_text(-k), text) == 0, "another sentence below zero", k);
        for (int32_t l = 1; l < k; l++)
            expect(!is_refusal(k) || strcmp(hulmbax_refusal_text(l), text) != 0, "a sentence twice", k);
    }
    for (size_t i = 0; i < sizeof others / sizeof *others; i++)
        expect(strcmp(hulmbax_refusal_text(others[i]), none) == 0, "a sentence", others[i]);
    expect(strcmp(version, HULMBAX_VERSION) == 0, "another version", 0);
    printf("%s\n", HULMBAX_VERSION);
    return failures != 0;
}
