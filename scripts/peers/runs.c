/*
 * runs: runs commands in turn, again and again, and prints the median and the least of each one's times.
 *
 *   runs TIMES < list
 *
 * A line of the list: NAME, how many units a run does, the file for standard
 * input, a file with further arguments (a line each; `-` for none) and the
 * command, between tabs; the command's words between blanks.
 */
#define _GNU_SOURCE
#include <fcntl.h>
#include <stdio.h>
#include <stdlib.h>
#include <string.h>
#include <sys/resource.h>
#include <sys/wait.h>
#include <time.h>
#include <unistd.h>

enum { TIMES_MAX = 64, COMMANDS_MAX = 64, WORDS_MAX = 200000 };

static struct command {
	char *name, *input, **words;
	double units, wall[TIMES_MAX], cpu[TIMES_MAX];
	long memory;
	int status;
} commands[COMMANDS_MAX];

static int
by_size(const void *a, const void *b)
{
	double x = *(const double *)a, y = *(const double *)b;

	return x < y ? -1 : x > y;
}

static double
now(void)
{
	struct timespec t;

	clock_gettime(CLOCK_MONOTONIC, &t);
	return t.tv_sec + t.tv_nsec * 1e-9;
}

static void
add_lines(char **words, int *n, const char *path)
{
	char *line = NULL;
	size_t room = 0;
	ssize_t len;
	FILE *f = fopen(path, "r");

	while (f != NULL && (len = getline(&line, &room, f)) > 0) {
		if (line[len - 1] == '\n')
			line[len - 1] = 0;
		words[(*n)++] = strdup(line);
	}
	if (f != NULL)
		fclose(f);
}

static void
read_command(struct command *c, char *line)
{
	char *more, *word;
	int n = 0;

	c->name = strsep(&line, "\t");
	c->units = atof(strsep(&line, "\t"));
	c->input = strsep(&line, "\t");
	more = strsep(&line, "\t");
	c->words = calloc(WORDS_MAX, sizeof *c->words);
	while ((word = strsep(&line, " ")) != NULL)
		if (*word)
			c->words[n++] = word;
	if (strcmp(more, "-") != 0)
		add_lines(c->words, &n, more);
}

static void
run(struct command *c, int time)
{
	struct rusage used;
	double start = now();
	int status;
	pid_t pid = fork();

	if (pid == 0) {
		int in = open(c->input, O_RDONLY), out = open("/dev/null", O_WRONLY);

		dup2(in, 0);
		dup2(out, 1);
		dup2(out, 2);
		execvp(c->words[0], c->words);
		_exit(127);
	}
	wait4(pid, &status, 0, &used);
	c->wall[time] = now() - start;
	c->cpu[time] = used.ru_utime.tv_sec + used.ru_stime.tv_sec
	    + (used.ru_utime.tv_usec + used.ru_stime.tv_usec) * 1e-6;
	c->memory = used.ru_maxrss;
	if (status != 0)
		c->status = status;
}

int
main(int argc, char **argv)
{
	int times = argc > 1 ? atoi(argv[1]) : 11, n = 0;
	char *line = NULL;
	size_t room = 0;
	ssize_t len;

	if (times < 1 || times > TIMES_MAX)
		return 2;
	while (n < COMMANDS_MAX && (len = getline(&line, &room, stdin)) > 0) {
		if (line[len - 1] == '\n')
			line[len - 1] = 0;
		if (*line)
			read_command(&commands[n++], strdup(line));
	}
	for (int t = 0; t < times; t++)
		for (int i = 0; i < n; i++)
			run(&commands[i], t);
	for (int i = 0; i < n; i++) {
		struct command *c = &commands[i];
		double cpu;

		qsort(c->wall, times, sizeof(double), by_size);
		qsort(c->cpu, times, sizeof(double), by_size);
		cpu = c->cpu[times / 2];
		printf("  %-42s %9.2f ms, %8.3f us a unit, %6ld KB, at least %.2f ms%s\n", c->name, cpu * 1e3,
		    c->units > 0 ? cpu * 1e6 / c->units : 0, c->memory, c->cpu[0] * 1e3, c->status ? " (refused)" : "");
	}
	return 0;
}
