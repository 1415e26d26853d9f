/* SPDX-License-Identifier: MIT */
/* Runs the build of PROGRAM for this processor, with the same name and arguments. The builds are below BUILDS, next
 * to the folder of this program, wherever both were moved. */
#include <errno.h>
#include <limits.h>
#include <stdio.h>
#include <string.h>
#include <unistd.h>
#include "processor.h"

#define BUILDS "/libexec/twox-hash/"
#define ITSELF "/proc/self/exe"

/* Removes a name from a path. Returns 0 if there is none. */
static int cut(char *path)
{
    char *slash = strrchr(path, '/');
    if (slash) *slash = 0;
    return slash != NULL;
}

/* The folder above that of this program: 0 if the system doesn't report it. */
static int find_folder(char *path, size_t size)
{
    ssize_t length = readlink(ITSELF, path, size);
    if (length < 0 || (size_t)length == size) return 0;
    path[length] = 0;
    return cut(path) && cut(path);
}

int main(int count, char **argv)
{
    char path[PATH_MAX + sizeof BUILDS "x86-64-v3/" PROGRAM];

    (void)count;
    if (find_folder(path, PATH_MAX)) {
        strcat(path, has_v3(features_here()) ? BUILDS "x86-64-v3/" PROGRAM : BUILDS "x86-64-v2/" PROGRAM);
        execv(path, argv);
    } else {
        strcpy(path, ITSELF);
    }
    fprintf(stderr, PROGRAM ": %s: %s\n", path, strerror(errno));
    return 127;
}
