// The header in C++: both functions are declared, link and work.
#include "fpm.h"

int main()
{
    uint8_t frame[FPM_FRAME_LEN], feeder, kind, sender;
    uint32_t counter;

    if (fpm_write(frame, sizeof frame, 7, FPM_RETURN, 15, 1) != FPM_DONE)
        return 1;
    if (fpm_read(frame, sizeof frame, &feeder, &kind, &sender, &counter) != FPM_DONE)
        return 1;
    return feeder == 7 && kind == FPM_RETURN && sender == 15 && counter == 1 ? 0 : 1;
}
