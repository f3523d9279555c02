/* A right solver in C for `tools/challenge --protocol lines`: deferred acceptance.

       cc -O2 -o lines examples/challenge/lines.c
       tools/challenge --protocol lines -- ./lines

   A line with an instance in JSON comes in, and a line with pairs goes out. It reads what `challenge` writes: one object without
   blanks, whose names have no escapes. It looks for the members `proposers` and `reviewers`, and passes over all others. */
#include <stdio.h>
#include <stdlib.h>
#include <string.h>

struct agent {
    char *name;
    char **entries; /* the names on the list, best first */
    int *list;      /* the same as numbers, -1 for a name that nobody has */
    int length, capacity, next, count;
    int *held;      /* the ranks of those that a reviewer has */
};

struct side {
    struct agent *agents;
    int count;
};

static char *at;

/* The string at `at`, whose closing quote becomes its end. */
static char *string(void)
{
    char *start = at + 1;
    at = strchr(start, '"');
    *at++ = '\0';
    return start;
}

/* One object of an agent: its members come in any order. */
static struct agent agent(void)
{
    struct agent it = {.capacity = 1};
    while (*at++ != '}') { /* over `{` or `,` */
        char *member = string();
        at++; /* the colon */
        if (!strcmp(member, "name"))
            it.name = string();
        else if (!strcmp(member, "capacity"))
            it.capacity = (int)strtol(at, &at, 10);
        else
            while (*at++ != ']') { /* over `[` or `,` */
                if (*at == ']')
                    continue;
                it.entries = realloc(it.entries, (it.length + 1) * sizeof *it.entries);
                it.entries[it.length++] = string();
            }
    }
    it.list = malloc((it.length + 1) * sizeof *it.list);
    it.held = malloc((it.length + 1) * sizeof *it.held);
    return it;
}

static int by_name(const void *one, const void *other)
{
    return strcmp(((const struct agent *)one)->name, ((const struct agent *)other)->name);
}

/* The agents of an array, sorted by name. */
static struct side side_at(char *start)
{
    struct side it = {0};
    at = start;
    while (*at++ != ']') { /* over `[` or `,` */
        if (*at == ']')
            continue;
        it.agents = realloc(it.agents, (it.count + 1) * sizeof *it.agents);
        it.agents[it.count++] = agent();
    }
    if (it.count)
        qsort(it.agents, it.count, sizeof *it.agents, by_name);
    return it;
}

/* Gives the names on a side's lists their numbers. */
static void number(struct side *own, struct side *others)
{
    for (int a = 0; a < own->count; a++)
        for (int i = 0; i < own->agents[a].length; i++) {
            struct agent wanted = {.name = own->agents[a].entries[i]};
            struct agent *found = others->count ? bsearch(&wanted, others->agents, others->count, sizeof wanted, by_name) : NULL;
            own->agents[a].list[i] = found ? (int)(found - others->agents) : -1;
        }
}

/* The place of a proposer on a reviewer's list, or -1. */
static int place_of(const struct agent *r, int p)
{
    for (int i = 0; i < r->length; i++)
        if (r->list[i] == p)
            return i;
    return -1;
}

/* Takes a proposer by its place; the place of the one that is turned down for it, or -1. */
static int take(struct agent *r, int place)
{
    int worst = r->count;
    r->held[r->count++] = place;
    if (r->count <= r->capacity)
        return -1;
    for (int i = 0; i < r->count; i++)
        if (r->held[i] > r->held[worst])
            worst = i;
    int out = r->held[worst];
    r->held[worst] = r->held[--r->count];
    return out;
}

static void solve(struct side *proposers, struct side *reviewers)
{
    for (int first = 0; first < proposers->count; first++) {
        int p = first; /* who proposes: this one, and then whoever is turned down for it */
        while (p >= 0 && proposers->agents[p].next < proposers->agents[p].length) {
            struct agent *r = &reviewers->agents[proposers->agents[p].list[proposers->agents[p].next++]];
            int place = place_of(r, p);
            if (place < 0)
                continue;
            int out = take(r, place);
            p = out < 0 ? -1 : r->list[out];
        }
    }
}

int main(void)
{
    char *line = NULL;
    size_t size = 0;
    while (getline(&line, &size, stdin) > 0) {
        /* The members are found before either is read, since reading ends strings. No name has a quote. */
        char *of_proposers = strstr(line, "\"proposers\":["), *of_reviewers = strstr(line, "\"reviewers\":[");
        struct side proposers = side_at(of_proposers + strlen("\"proposers\":"));
        struct side reviewers = side_at(of_reviewers + strlen("\"reviewers\":"));
        number(&proposers, &reviewers);
        number(&reviewers, &proposers);
        solve(&proposers, &reviewers);
        const char *mark = "";
        putchar('[');
        for (int r = 0; r < reviewers.count; r++)
            for (int i = 0; i < reviewers.agents[r].count; i++, mark = ",") {
                struct agent *it = &reviewers.agents[r];
                printf("%s[\"%s\",\"%s\"]", mark, proposers.agents[it->list[it->held[i]]].name, it->name);
            }
        puts("]");
        fflush(stdout);
        struct side *sides[] = {&proposers, &reviewers};
        for (int s = 0; s < 2; s++) {
            for (int a = 0; a < sides[s]->count; a++) {
                free(sides[s]->agents[a].entries);
                free(sides[s]->agents[a].list);
                free(sides[s]->agents[a].held);
            }
            free(sides[s]->agents);
        }
    }
    free(line);
    return 0;
}
