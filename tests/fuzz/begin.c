/* What both fuzzers do first: see to it that the right answers are told when the program ends. */
#include "answers.h"

#include <stdio.h>
#include <stdlib.h>

int LLVMFuzzerInitialize(int *count, char ***words);

static void tell(void)
{
    printf("answers: ");
    show_answers();
}

int LLVMFuzzerInitialize(int *count, char ***words)
{
    (void)count, (void)words;
    return atexit(tell);
}
