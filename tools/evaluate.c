/* evaluate FILE: the truth of a modal formula at the actual world of a finite Kripke structure, by plain recursion with
 * early exits over flat tables of 32-bit cells. What the program's evaluator is measured against; tools/measure_evaluation
 * writes FILE and runs it. Prints the truth, the atoms that were judged, and the seconds of the evaluation alone.
 *
 * FILE has numbers and letters between blanks: the worlds and the actual one; the relations, each with its cells; the
 * sorts, each with its size and the cells of existence, or -1; the symbols, each with 1 where its rows have a world in
 * front, its sorts and its cells; and the formula, its parts behind it. A variable is the number of its quantifier,
 * counted from the outside.
 */
#include <stdio.h>
#include <stdlib.h>
#include <time.h>

typedef struct { int size; int *exists; } Sort;
typedef struct { int has_world, count, *sorts, *cells; } Symbol;
typedef struct { char kind; int number, count, *parts; } Cell;

static FILE *in;
static int worlds, actual, sort_count;
static int **relations;
static Sort *sorts;
static Symbol *symbols;
static Cell cells[1 << 20];
static int made, environment[1024];
static long atoms;

static int number(void) {
  int n;
  if (fscanf(in, "%d", &n) != 1) exit(2);
  return n;
}

static int *table(long count) {
  int *t = malloc(count * sizeof(int));
  for (long i = 0; i < count; i++) t[i] = number();
  return t;
}

/* reads a formula or a term, and gives its cell's number */
static int expression(void) {
  char kind;
  if (fscanf(in, " %c", &kind) != 1) exit(2);
  Cell c = {kind, 0, 0, 0};
  switch (kind) {
  case 'v': c.number = number(); break;
  case 'f': case 'p': c.number = number(); c.count = symbols[c.number].count - symbols[c.number].has_world; break;
  case '&': case '|': c.count = number(); break;
  case '~': c.count = 1; break;
  case '=': case '>': case '<': c.count = 2; break;
  case '!': case '?': case '[': case '/': c.number = number(); c.count = 1; break;
  default: exit(2);
  }
  c.parts = malloc((c.count + 1) * sizeof(int));
  for (int i = 0; i < c.count; i++) c.parts[i] = expression();
  cells[made] = c;
  return made++;
}

static int value(int at, int world);

static int entry(const Cell *c, int world) {
  const Symbol *s = &symbols[c->number];
  long place = s->has_world ? world : 0;
  for (int i = 0; i < c->count; i++) place = place * sorts[s->sorts[i + s->has_world]].size + value(c->parts[i], world);
  return s->cells[place];
}

static int value(int at, int world) {
  const Cell *c = &cells[at];
  return c->kind == 'v' ? environment[c->number] : entry(c, world);
}

static int holds(int at, int world, int level) {
  const Cell *c = &cells[at];
  switch (c->kind) {
  case 'p': atoms++; return entry(c, world);
  case '=': atoms++; return value(c->parts[0], world) == value(c->parts[1], world);
  case '~': return !holds(c->parts[0], world, level);
  case '&': for (int i = 0; i < c->count; i++) if (!holds(c->parts[i], world, level)) return 0; return 1;
  case '|': for (int i = 0; i < c->count; i++) if (holds(c->parts[i], world, level)) return 1; return 0;
  case '>': return !holds(c->parts[0], world, level) || holds(c->parts[1], world, level);
  case '<': return holds(c->parts[0], world, level) == holds(c->parts[1], world, level);
  case '[': for (int v = 0; v < worlds; v++) if (relations[c->number][(long)world * worlds + v] && !holds(c->parts[0], v, level)) return 0; return 1;
  case '/': for (int v = 0; v < worlds; v++) if (relations[c->number][(long)world * worlds + v] && holds(c->parts[0], v, level)) return 1; return 0;
  default: {
    const Sort *s = &sorts[c->number];
    for (int a = 0; a < s->size; a++) {
      if (s->exists && !s->exists[(long)world * s->size + a]) continue;
      environment[level] = a;
      if (holds(c->parts[0], world, level + 1) == (c->kind == '?')) return c->kind == '?';
    }
    return c->kind == '!';
  }
  }
}

int main(int count, char **words) {
  if (count != 2 || !(in = fopen(words[1], "r"))) return 2;
  worlds = number();
  actual = number();
  int n = number();
  relations = malloc((n + 1) * sizeof(int *));
  for (int i = 0; i < n; i++) relations[i] = table((long)worlds * worlds);
  sort_count = number();
  sorts = malloc((sort_count + 2) * sizeof(Sort));
  sorts[0].size = worlds; /* sort 0 is that of the worlds */
  for (int i = 1; i <= sort_count; i++) {
    sorts[i].size = number();
    sorts[i].exists = number() < 0 ? 0 : table((long)worlds * sorts[i].size);
  }
  n = number();
  symbols = malloc((n + 1) * sizeof(Symbol));
  for (int i = 0; i < n; i++) {
    Symbol *s = &symbols[i];
    s->has_world = number();
    s->count = number();
    s->sorts = table(s->count);
    long rows = 1;
    for (int k = 0; k < s->count; k++) rows *= sorts[s->sorts[k]].size;
    s->cells = table(rows);
  }
  int root = expression();
  clock_t start = clock();
  int truth = holds(root, actual, 0);
  printf("%d %ld %.4f\n", truth, atoms, (double)(clock() - start) / CLOCKS_PER_SEC);
  return 0;
}
