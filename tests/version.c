/* Prints the version that the archive was built as. Ends with 1 if the header's is another. */
#include "chezumobari.h"

#include <stdio.h>
#include <string.h>

int main(void)
{
    printf("%s\n", chezumobari_version);
    return strcmp(chezumobari_version, CHEZUMOBARI_VERSION) == 0 ? 0 : 1;
}
