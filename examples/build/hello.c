#include <stdio.h>

extern const char built[];

int main(void)
{
    printf("built at %s by the network's time\n", built);
    return 0;
}
