/* Lets one call on the files of a folder fail, of a program that is dynamically linked, and tells how many there were.
 *
 * build:  cc -O2 -shared -fPIC -o failing.so failing.c -ldl
 * run:    FOLDER=DIR CALL=N HOW=WORD TOLD=FILE LD_PRELOAD=./failing.so PROGRAM ..
 *
 * Counted are open, statx, pread, pwrite, fsync, fdatasync and flock, of the folder and of what was opened in it. The
 * Nth does what the word says, none where N is 0: `fail` (no space, half of the bytes of a write put), `interrupt`
 * (EINTR, once), `again` (EAGAIN, once), `short` (half of the bytes of a read or a write), `kill` (the process is
 * killed in front of it), `hold` (the process stops in front of it until it is told to go on). FILE gets a letter for
 * each call.
 *
 * With LINES writes to standard output are told as well and not counted: `S` with a line of a sync, else `P`, and `F`
 * behind one that failed, unless it has to be tried again; and a write to the folder with the beginning of an index
 * gets `x` in place of `w`. With BYTE each write to standard output takes one byte.
 *
 * With READER the folder lies where files are only read: none is opened to be written, and no sync is done.
 *
 * Without FOLDER the reads of standard input and the writes to standard output are counted in place of these.
 */
#define _GNU_SOURCE
#include <dlfcn.h>
#include <errno.h>
#include <fcntl.h>
#include <signal.h>
#include <stdarg.h>
#include <stdio.h>
#include <stdlib.h>
#include <string.h>
#include <sys/stat.h>
#include <sys/types.h>
#include <unistd.h>

static unsigned char ours[1024];
static unsigned long count;

#define NEXT(name) ((__typeof__(&name))dlsym(RTLD_NEXT, #name))

static int is_ours(int fd)
{
	return fd >= 0 && fd < 1024 && ours[fd];
}

static int is_within(const char *path)
{
	const char *folder = getenv("FOLDER");
	int fd;
	if (sscanf(path, "/proc/self/fd/%d", &fd) == 1)
		return is_ours(fd);
	return folder && strncmp(path, folder, strlen(folder)) == 0;
}

/* Tells a letter. The file never stands where a stream was closed. */
static void tell(char letter)
{
	static int told = -1;
	const char *name = getenv("TOLD");
	if (told < 0 && name) {
		int opened = open64(name, O_WRONLY | O_CREAT | O_APPEND, 0666);
		told = fcntl(opened, F_DUPFD_CLOEXEC, 3);
		close(opened);
	}
	if (told >= 0 && NEXT(write)(told, &letter, 1) != 1)
		abort();
}

/* Which word this call is to follow, by its first letter, or 0. */
static char word_for(char letter)
{
	const char *nth = getenv("CALL"), *how = getenv("HOW");
	tell(letter);
	if (++count != (nth ? strtoul(nth, 0, 10) : 0))
		return 0;
	if (how && how[0] == 'k')
		kill(getpid(), SIGKILL);
	if (how && how[0] == 'h')
		kill(getpid(), SIGSTOP);
	errno = how && how[0] == 'i' ? EINTR : how && how[0] == 'a' ? EAGAIN : ENOSPC;
	return how ? how[0] : 0;
}

static int fails(char word)
{
	return word == 'f' || word == 'i' || word == 'a';
}

/* The same for a call on a standard stream, if these are counted. */
static char word_of(int fd, int stream, char letter)
{
	return fd == stream && !getenv("FOLDER") && getenv("CALL") ? word_for(letter) : 0;
}

int open(const char *path, int flags, ...)
{
	va_list rest;
	mode_t mode;
	int fd;
	va_start(rest, flags);
	mode = flags & O_CREAT ? va_arg(rest, mode_t) : 0;
	va_end(rest);
	if (!is_within(path))
		return NEXT(open)(path, flags, mode);
	if (fails(word_for(flags & O_CREAT ? 'O' : 'o')))
		return -1;
	if (getenv("READER") && (flags & O_ACCMODE) != O_RDONLY) {
		errno = EROFS;
		return -1;
	}
	fd = NEXT(open)(path, flags, mode);
	if (fd >= 0 && fd < 1024)
		ours[fd] = 1;
	return fd;
}

int close(int fd)
{
	if (is_ours(fd))
		ours[fd] = 0;
	return NEXT(close)(fd);
}

int statx(int dir, const char *path, int flags, unsigned int mask, struct statx *found)
{
	if ((is_within(path) || (!*path && is_ours(dir))) && fails(word_for('l')))
		return -1;
	return NEXT(statx)(dir, path, flags, mask, found);
}

ssize_t pread64(int fd, void *bytes, size_t size, off64_t at)
{
	char word = is_ours(fd) ? word_for('r') : 0;
	if (fails(word))
		return -1;
	return NEXT(pread64)(fd, bytes, word == 's' ? (size + 1) / 2 : size, at);
}

ssize_t pread(int fd, void *bytes, size_t size, off_t at)
{
	return pread64(fd, bytes, size, at);
}

ssize_t pwrite64(int fd, const void *bytes, size_t size, off64_t at)
{
	int is_index = getenv("LINES") && memmem(bytes, size, "<ltfsindex", 10);
	char word = is_ours(fd) ? word_for(is_index ? 'x' : 'w') : 0;
	if (word == 'f') {
		if (NEXT(pwrite64)(fd, bytes, size / 2, at) < 0)
			abort();
		errno = ENOSPC;
	}
	if (fails(word))
		return -1;
	return NEXT(pwrite64)(fd, bytes, word == 's' ? (size + 1) / 2 : size, at);
}

ssize_t pwrite(int fd, const void *bytes, size_t size, off_t at)
{
	return pwrite64(fd, bytes, size, at);
}

ssize_t read(int fd, void *bytes, size_t size)
{
	char word = word_of(fd, 0, 'i');
	if (fails(word))
		return -1;
	return NEXT(read)(fd, bytes, word == 's' ? (size + 1) / 2 : size);
}

ssize_t write(int fd, const void *bytes, size_t size)
{
	char word = word_of(fd, 1, 'p');
	int told = fd == 1 && getenv("FOLDER") && getenv("LINES");
	ssize_t count;
	if (fails(word))
		return -1;
	if (told)
		tell(memmem(bytes, size, " synced\n", 8) ? 'S' : 'P');
	if (fd == 1 && size && getenv("BYTE"))
		size = 1;
	count = NEXT(write)(fd, bytes, word == 's' ? (size + 1) / 2 : size);
	if (told && count < 0 && errno != EINTR && errno != EAGAIN) {
		int why = errno;
		tell('F');
		errno = why;
	}
	return count;
}

/* Whether a sync of it fails. */
static int fails_to_sync(int fd)
{
	if (!is_ours(fd))
		return 0;
	if (fails(word_for('s')))
		return 1;
	errno = EINVAL;
	return getenv("READER") != NULL;
}

int fsync(int fd)
{
	return fails_to_sync(fd) ? -1 : NEXT(fsync)(fd);
}

int fdatasync(int fd)
{
	return fails_to_sync(fd) ? -1 : NEXT(fdatasync)(fd);
}

int flock(int fd, int how)
{
	return is_ours(fd) && fails(word_for('c')) ? -1 : NEXT(flock)(fd, how);
}
