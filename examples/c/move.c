/* One record is admitted behind another, which is retired; then the record is moved down while a client holds it. Prints each answer and
 * value, and fails where one is not as the specification has it. */
#include "tangvrak.h"

#include <stdio.h>

static uint8_t buffer[TANGVRAK_BUFFER];

static int wrong;

static void step(uint32_t who, uint32_t code, uint32_t a, uint32_t b, uint32_t v, uint32_t answer, uint32_t value)
{
    uint64_t r = tangvrak_step(buffer, sizeof buffer, who, code, a, b, v);
    printf("%u %u\n", TANGVRAK_ANSWER(r), TANGVRAK_VALUE(r));
    if (TANGVRAK_ANSWER(r) != answer || TANGVRAK_VALUE(r) != value)
        wrong = 1;
}

int main(void)
{
    uint32_t word;
    if (TANGVRAK_ANSWER(tangvrak_fresh(buffer, sizeof buffer)) != 30)
        return 1;
    step(0, 1, 1, 0, 0, 20, 0);  /* ADMIT meter 1, kind 0: cell 0 */
    step(0, 1, 2, 0, 0, 20, 1);  /* ADMIT meter 2, kind 0: cell 1 */
    step(0, 2, 1, 0, 0, 30, 0);  /* RETIRE meter 1 */
    step(1, 10, 0, 0, 0, 30, 0); /* client 1 attaches */
    step(1, 12, 2, 0, 0, 30, 0); /* and opens meter 2 in hold 0 */
    step(0, 3, 2, 0, 0, 21, 0);  /* BEGIN: meter 2 is to go to cell 0 */
    step(1, 17, 0, 0, 0, 30, 0); /* client 1 rests */
    step(0, 4, 0, 0, 0, 23, 0);  /* ADVANCE: to copying */
    for (word = 1; word <= 8; word++)
        step(0, 4, 0, 0, 0, 24, word);
    step(1, 17, 0, 0, 0, 30, 0);  /* client 1 rests again */
    step(0, 4, 0, 0, 0, 25, 0);   /* the move is committed */
    step(1, 15, 0, 5, 77, 31, 0); /* WRITE word 5: ready at the new block */
    step(1, 16, 0, 0, 0, 35, 0);  /* written */
    step(1, 17, 0, 0, 0, 30, 0);  /* the hold follows */
    step(0, 4, 0, 0, 0, 27, 0);   /* the old block is given back */
    step(1, 14, 0, 5, 0, 31, 0);  /* READ word 5 */
    step(1, 16, 0, 0, 0, 34, 77); /* 77 */
    if (tangvrak_fill(buffer, sizeof buffer) != ((uint64_t)30 << 32) + 1)
        wrong = 1;
    return wrong;
}
