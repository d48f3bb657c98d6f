/* The guest's first process: plays the commands of /commands on a mounted resctrl, one a line, and prints each answer.

     tasks ID ..            processes with these ids, which are below 4000000; the player's own is 4000000
     mkdir PATH | rmdir PATH | read PATH | list PATH
     write PATH HEX         one write of these bytes, or of none for `-`
     rmid NUMBER PATH       keeps the RMID of the group at PATH under a number (needs the mount option `debug`)
     lines DOMAIN NUMBER N  the RMID that is kept under the number has N lines there
     tick | drain | clear   as in simulated.c
     next                   the next script: a new mount, and a pid namespace of its own, so that its tasks can have any ids

   An answer is `@ ERRNO HEX-OF-TEXT HEX-OF-LAST_CMD_STATUS`, with `-` for no byte. Paths are below /sys/fs/resctrl.
   Boot words: `drained` drains limbo after each command, `resctrl_debug` mounts with the option `debug`. */
#define _GNU_SOURCE
#include <dirent.h>
#include <errno.h>
#include <fcntl.h>
#include <linux/sched.h>
#include <sched.h>
#include <signal.h>
#include <stdint.h>
#include <stdio.h>
#include <stdlib.h>
#include <string.h>
#include <sys/mount.h>
#include <sys/reboot.h>
#include <sys/stat.h>
#include <sys/syscall.h>
#include <sys/wait.h>
#include <unistd.h>

#define TREE "/sys/fs/resctrl"
#define LEVER "/sys/module/simulated/parameters/lever"
#define PLAYER 4000000
#define MOST_NUMBERS 4096
#define SHORT_WRITE 999

enum end { ALL_PLAYED = 0, MORE_SCRIPTS = 1, NO_PLAYER = 2, DIED = 3 };

static char text[1 << 16], line[1 << 18], path[1 << 13];
static int rmid_of[MOST_NUMBERS];
static int is_drained, is_debug;

static void print_hex(const char *bytes, long count)
{
	if (count <= 0)
		printf("-");
	for (long i = 0; i < count; i++)
		printf("%02x", (unsigned char)bytes[i]);
}

/* Reads a whole file into `text`, and gives its length; `fault` is an error's number or 0. */
static long read_file(const char *name, int *fault)
{
	long length = 0, count;
	int file = open(name, O_RDONLY);

	*fault = file < 0 ? errno : 0;
	if (file < 0)
		return 0;
	while ((count = read(file, text + length, sizeof text - length)) > 0)
		length += count;
	if (count < 0)
		*fault = errno;
	close(file);
	return length;
}

/* Writes a file by one call, and gives an error's number or 0. */
static int write_file(const char *name, const char *bytes, long count)
{
	int fault = 0, file = open(name, O_WRONLY);

	if (file < 0)
		return errno;
	long done = write(file, bytes, count);
	if (done != count)
		fault = done < 0 ? errno : SHORT_WRITE;
	close(file);
	return fault;
}

static int pull_lever(const char *word)
{
	return write_file(LEVER, word, strlen(word));
}

static long unhex(const char *hex)
{
	long count = 0;
	unsigned byte;

	for (; hex[0] && hex[1] && sscanf(hex, "%2x", &byte) == 1; hex += 2)
		text[count++] = byte;
	return count;
}

static int is_visible(const struct dirent *entry)
{
	return strcmp(entry->d_name, ".") && strcmp(entry->d_name, "..");
}

static long list_directory(int *fault)
{
	struct dirent **entries;
	long length = 0;
	int count = scandir(path, &entries, is_visible, alphasort);

	*fault = count < 0 ? errno : 0;
	for (int i = 0; i < count; i++)
		length += sprintf(text + length, "%s\n", entries[i]->d_name);
	return length;
}

/* A new process, with an id where one is wanted. */
static pid_t clone_as(pid_t wanted, int flags)
{
	pid_t ids[1] = { wanted };
	struct clone_args args = { .exit_signal = SIGCHLD, .flags = flags };

	if (wanted) {
		args.set_tid = (uintptr_t)ids;
		args.set_tid_size = 1;
	}
	return syscall(SYS_clone3, &args, sizeof args);
}

/* Process 1 of the namespace is there already. */
static void make_tasks(char *word)
{
	for (; word; word = strtok(0, " ")) {
		pid_t wanted = atol(word), made = wanted == 1 ? 1 : clone_as(wanted, 0);
		if (made == 0)
			for (;;)
				pause();
		if (made != wanted)
			printf("# task %s was not made: error %d\n", word, errno);
	}
}

static int keep_rmid(const char *number, const char *group)
{
	int fault;

	snprintf(path, sizeof path, TREE "%s/mon_hw_id", group);
	long length = read_file(path, &fault);
	text[length] = 0;
	rmid_of[atoi(number) % MOST_NUMBERS] = atoi(text);
	return fault;
}

static int set_lines(const char *domain, const char *number, const char *lines)
{
	char word[64];

	snprintf(word, sizeof word, "lines %s %d %s", domain, rmid_of[atoi(number) % MOST_NUMBERS], lines);
	return pull_lever(word);
}

/* Plays one command, and prints its answer. */
static void play(const char *verb, char *first, char *second)
{
	long length = 0;
	int fault = 0, ignored;

	snprintf(path, sizeof path, TREE "%s", first ? first : "");
	if (!strcmp(verb, "mkdir"))
		fault = mkdir(path, 0755) ? errno : 0;
	else if (!strcmp(verb, "rmdir"))
		fault = rmdir(path) ? errno : 0;
	else if (!strcmp(verb, "write"))
		fault = write_file(path, text, unhex(second));
	else if (!strcmp(verb, "read"))
		length = read_file(path, &fault);
	else if (!strcmp(verb, "list"))
		length = list_directory(&fault);
	else if (!strcmp(verb, "rmid"))
		fault = keep_rmid(first, second);
	else if (!strcmp(verb, "lines"))
		fault = set_lines(first, second, strtok(0, " "));
	else
		fault = pull_lever(verb);
	printf("@ %d ", fault);
	print_hex(text, length);
	printf(" ");
	length = read_file(TREE "/info/last_cmd_status", &ignored);
	print_hex(text, length);
	printf("\n");
	fflush(stdout);
	if (is_drained)
		pull_lever("drain");
}

/* Plays one script. */
static enum end play_script(FILE *commands)
{
	while (fgets(line, sizeof line, commands)) {
		line[strcspn(line, "\n")] = 0;
		char *verb = strtok(line, " "), *first = strtok(0, " ");
		if (!verb)
			continue;
		if (!strcmp(verb, "next"))
			return MORE_SCRIPTS;
		if (!strcmp(verb, "tasks"))
			make_tasks(first);
		else
			play(verb, first, strtok(0, " "));
	}
	return ALL_PLAYED;
}

/* In a new pid namespace, as its process 1: a player with an id of its own. */
static enum end play_as_player(FILE *commands)
{
	int status = 0;

	setvbuf(stdout, 0, _IOFBF, 1 << 16);
	pid_t player = clone_as(PLAYER, 0);
	if (player == 0) {
		enum end end = play_script(commands);
		fflush(stdout);
		_exit(end);
	}
	if (player < 0)
		return NO_PLAYER;
	while (waitpid(player, &status, 0) < 0 && errno == EINTR)
		;
	return WIFEXITED(status) ? WEXITSTATUS(status) : DIED;
}

static enum end play_mounted(FILE *commands)
{
	int status = 0;

	if (mount("resctrl", TREE, "resctrl", 0, is_debug ? "debug" : 0))
		printf("# resctrl is not mounted: error %d\n", errno);
	printf("@ script\n");
	fflush(stdout);
	pid_t inner = clone_as(0, CLONE_NEWPID);
	if (inner == 0)
		_exit(play_as_player(commands));
	if (inner < 0)
		return NO_PLAYER;
	waitpid(inner, &status, 0);
	umount(TREE);
	pull_lever("drain");
	pull_lever("clear");
	return WIFEXITED(status) ? WEXITSTATUS(status) : DIED;
}

static int has_boot_word(const char *word)
{
	int fault;
	long length = read_file("/proc/cmdline", &fault);

	text[length] = 0;
	return strstr(text, word) != 0;
}

/* Ids up to the greatest that a kernel allows. The first write makes room for the second on kernels that keep 32768 at first. */
static void allow_large_ids(void)
{
	write_file("/proc/sys/kernel/pid_max", "32768", 5);
	write_file("/proc/sys/kernel/pid_max", "4194304", 7);
}

int main(void)
{
	enum end end = MORE_SCRIPTS;

	mkdir("/proc", 0755);
	mkdir("/sys", 0755);
	mount("proc", "/proc", "proc", 0, 0);
	mount("sysfs", "/sys", "sysfs", 0, 0);
	allow_large_ids();
	is_drained = has_boot_word("drained");
	is_debug = has_boot_word("resctrl_debug");
	FILE *commands = fopen("/commands", "r");
	setvbuf(commands, 0, _IONBF, 0);
	while (end == MORE_SCRIPTS)
		end = play_mounted(commands);
	printf("@ end %d\n", end);
	fflush(stdout);
	reboot(RB_AUTOBOOT);
	for (;;)
		pause();
}
