// All of satchelram.h that has code, compiled as C++ with warnings for casts of C's kind.
#include "satchelram.h"

static uint8_t work[SATCHELRAM_WORK_MOST];

int main()
{
    uint64_t answer = satchelram_version();
    size_t size = SATCHELRAM_WORK_SIZE(sizeof work);
    return satchelram_number(answer) + satchelram_second(answer) + satchelram_third(answer) + size == 0 || satchelram_words(1) == satchelram_words(2);
}
