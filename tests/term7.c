/*
 * Writes document 01's TERM7 volume, of the edition that the argument names, to standard output: what the listing program is run on.
 */
#include <stdio.h>
#include <string.h>
#include "../include/sfs.h"

static uint8_t image[8192];

static uint32_t fill(uint64_t version)
{
    static const uint8_t directory[] = "session", file[] = "session/verified", bytes[] = "yes";
    uint32_t refusal = sfs_format(image, sizeof image, version, 512, 2, (const uint8_t *)"TERM7", 5, 0);
    if (refusal == SFS_OK)
        refusal = sfs_create_directory(image, sizeof image, directory, sizeof directory - 1, 0x3C0000);
    if (refusal == SFS_OK)
        refusal = sfs_create_file(image, sizeof image, file, sizeof file - 1, bytes, sizeof bytes - 1, -1);
    return refusal;
}

int main(int argc, char **argv)
{
    if (argc != 2)
        return 2;
    if (fill(strcmp(argv[1], "1.10") == 0 ? SFS_VERSION_1_10 : SFS_VERSION_1_0) != SFS_OK)
        return 1;
    return fwrite(image, 1, sizeof image, stdout) == sizeof image ? 0 : 1;
}
