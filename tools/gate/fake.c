/* What tools/gate/agree_checks.sh refuses memory to: a program of two parts, each of which asks for
   memory three times. Where the second request of the second part is refused, it says something
   else (WRONG=a), keeps a block (WRONG=k), ends with status 1 (WRONG=s), or crashes (WRONG=c).

   With arguments it runs the script that the last one names. It asks for memory once, without which
   it ends with status 3, and once for each command, which answers `ok` or is refused. All answers
   are said at the end. With WRONG=o it says something where it ends with 3. Where a command is
   refused, the later ones answer something else (WRONG=l), it says one answer more (WRONG=e), or it
   keeps a block or ends with status 1, as above. With WRONG=m its first line lacks memory, whatever is refused. */
typedef unsigned long size;

extern char *getenv(const char *name);
extern void *malloc(size bytes);
extern void free(void *block);
extern int open(const char *path, int how);
extern long read(int file, void *bytes, size length);
extern long write(int file, const void *bytes, size length);

static char answers[10000];
static size said;

static void say(const char *answer) {
  while (*answer) answers[said++] = *answer++;
}

static int run_script(const char *path, char wrong) {
  static char script[100000];
  long length = read(open(path, 0), script, sizeof script);
  void *held = malloc(8);
  if (!held) {
    if (wrong == 'o') (void)!write(1, "ok\n", 3);
    return 3;
  }
  char fault = 0;
  for (long at = 0; at < length; at++) {
    if (at && script[at - 1] != '\n' || script[at] == '#' || script[at] == '\n') continue;
    void *block = malloc(8);
    say(!block || wrong == 'm' && !at ? "refused memory\n" : fault == 'l' ? "other\n" : "ok\n");
    if (!block) fault = wrong;
    free(block);
  }
  if (fault == 'e') say("ok\n");
  if (fault != 'k') free(held);
  (void)!write(1, answers, said);
  return fault == 's';
}

int main(int count, char **arguments) {
  const char *wrong = getenv("WRONG");
  if (count > 1) return run_script(arguments[count - 1], wrong ? *wrong : 0);
  char line[] = "part 1: done\n", wanted = 0;
  (void)!read(0, &wanted, 1);
  for (line[5] = '1'; line[5] <= '2'; line[5]++) {
    if (wanted && wanted != line[5]) continue;
    void *blocks[3];
    int refused = 0;
    for (int i = 0; i < 3; i++)
      if (!(blocks[i] = malloc(8))) refused = i + 1;
    char fault = wrong && refused == 2 && line[5] == '2' ? *wrong : 0;
    for (int i = fault == 'k'; i < 3; i++) free(blocks[i]);
    if (fault == 'a') line[8] = 'n';
    (void)!write(1, line, sizeof line - 1);
    if (fault == 's') return 1;
    if (fault == 'c') __builtin_trap();
  }
  return 0;
}
