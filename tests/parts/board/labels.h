/* The labels of an assembled program, as ld65 lists them. */
#include <stdio.h>
#include <stdlib.h>
#include <string.h>

static struct {
    char name[32];
    int at;
} labels[2000];
static int label_count;

static void read_labels(const char *path)
{
    FILE *file = fopen(path, "r");
    char line[200], name[100];
    unsigned at;
    if (!file) exit(1);
    while (fgets(line, sizeof line, file)) {
        if (sscanf(line, "al %x .%31s", &at, name) != 2 || label_count == 2000) continue;
        strcpy(labels[label_count].name, name);
        labels[label_count++].at = (int)at;
    }
    fclose(file);
}

/* The number of the first label of this name, or -1. */
static int find_label(const char *name)
{
    for (int i = 0; i < label_count; i++)
        if (!strcmp(labels[i].name, name)) return i;
    return -1;
}

static int label(const char *name)
{
    const int i = find_label(name);
    if (i >= 0) return labels[i].at;
    printf("no label %s\n", name);
    exit(1);
}
