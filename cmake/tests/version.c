/* Prints the header's version, as written and by its three numbers, if the library answers. */
#include <maizespell.h>
#include <stdio.h>

int main(void) {
    const struct maizespell_sizing_result sized = maizespell_sizing(NULL, 0);
    if (sized.refusal != MAIZESPELL_GROUP_NOT_WHOLE) {
        return 1;
    }
    printf("%s %d.%d.%d\n", MAIZESPELL_VERSION, MAIZESPELL_VERSION_MAJOR, MAIZESPELL_VERSION_MINOR,
           MAIZESPELL_VERSION_PATCH);
    return 0;
}
