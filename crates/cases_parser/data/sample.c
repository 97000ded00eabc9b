/* A hash table from names to numbers, with chains. */
#include <stdio.h>
#include <stdlib.h>
#include <string.h>

#define BUCKETS 64

typedef unsigned long size;

struct entry {
    const char *name;
    int value;
    struct entry *next;
};

struct table {
    struct entry *buckets[64];
    size count;
    int (*hash)(const char *name, size buckets);
};

enum outcome { FOUND, MISSING = 4, FULL };

static struct table shared;

static int hash_of(const char *name, size buckets)
{
    unsigned long hash = 5381;
    for (const char *at = name; *at != '\0'; ++at)
        hash = (hash << 5) + hash + (unsigned char)*at;
    return (int)(hash % buckets);
}

static struct entry *find(struct table *table, const char *name)
{
    struct entry *entry = table->buckets[table->hash(name, 64)];
    while (entry && strcmp(entry->name, name) != 0)
        entry = entry->next;
    return entry;
}

enum outcome put(struct table *table, const char *name, int value)
{
    struct entry *entry = find(table, name);
    int bucket;
    if (entry) {
        entry->value = value;
        return FOUND;
    }
    entry = malloc(sizeof(struct entry));
    if (entry == 0)
        return FULL;
    else
        bucket = table->hash(name, sizeof table->buckets / sizeof *table->buckets);
    entry->name = name;
    entry->value = value;
    entry->next = table->buckets[bucket];
    table->buckets[bucket] = entry;
    table->count += 1;
    return MISSING;
}

int sum(const struct table *table)
{
    int total = 0, bucket = 0;
    do {
        for (struct entry *at = table->buckets[bucket]; at; at = at->next) {
            switch (at->value) {
            case 0:
            case -1:
                continue;
            default:
                if (at->value > 100)
                    goto out;
                total += at->value & 0x7f;
                break;
            }
        }
    } while (++bucket < 64);
out:
    return total > 0 ? total : -total;
}

int main(int argc, char **argv)
{
    static const int primes[] = { 2, 3, 5, 7, 11 };
    int position;
    shared.hash = hash_of;
    for (position = 1; position < argc; position++)
        put(&shared, argv[position], primes[position % 5] * (position | 1));
    printf("%lu names, " "sum %d\n", shared.count, sum(&shared));
    return 0;
}
