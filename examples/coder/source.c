/* What feeds the coder: the words of the data space, from its first on. */
#include "tta.h"
int main(void)
{
    for (uint32_t at = 0; at < 256; at++)
        tta_out(tta_load(at));
    return 0;
}
