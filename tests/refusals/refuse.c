/*
 * Preloaded into one process: counts what it asks of the C library's allocator and refuses one of these.
 *
 * REFUSE_AT=N     the N-th is refused; none is where N is 0
 * REFUSE_TALK=D   where it is set, nothing is refused in this process. At the N-th it forks, and the child goes on from the
 *                 same state, with that one refused; the process waits until the child has ended, and goes on. Before it
 *                 forks it writes N and -1 to the stream D, each of eight bytes, and behind the child's end N and the
 *                 child's status, as wait(2) has it. Each time it waits for a number of eight bytes, and the second of them
 *                 is where it forks next
 * REFUSE_COUNT=F  four numbers of eight bytes in F: how many there were, how many of them were refused, how many
 *                 connections were begun, which tells of tries that failed, and how often it began to listen
 *
 * Counting begins once this library is loaded, so the loader's own allocations aren't among them. F is mapped, so it is
 * right whatever ends the process.
 */
#define _GNU_SOURCE
#include <errno.h>
#include <fcntl.h>
#include <malloc.h>
#include <stdint.h>
#include <signal.h>
#include <stdlib.h>
#include <sys/mman.h>
#include <sys/prctl.h>
#include <sys/socket.h>
#include <sys/syscall.h>
#include <sys/wait.h>
#include <unistd.h>

/*
 * What a child frees it frees for good only if it is smaller: glibc writes into what is free, and each page of the parent
 * would be copied for that. A block that is freed twice ends the child as glibc would.
 */
enum { LARGE = 2048, MOST_FREED = 1 << 14 };

/* glibc's own, by names that this library leaves alone */
extern void *__libc_malloc(size_t);
extern void *__libc_calloc(size_t, size_t);
extern void *__libc_realloc(void *, size_t);
extern void *__libc_memalign(size_t, size_t);
extern void __libc_free(void *);

struct told {
	uint64_t asked;
	uint64_t refused;
	uint64_t connections;
	uint64_t listened;
};

static struct told *told;
static uint64_t refuse_at;
/* -1 where this process doesn't fork */
static int talk = -1;
static int is_of_fork;
/* the large blocks that were freed in a child, each at its hash or behind it */
static void *freed[MOST_FREED];
static size_t freed_count;

__attribute__((constructor)) static void begin(void)
{
	const char *path = getenv("REFUSE_COUNT");
	const char *number = getenv("REFUSE_AT");
	const char *stream = getenv("REFUSE_TALK");
	if (!path || !number)
		return;
	int file = open(path, O_RDWR | O_CREAT | O_TRUNC | O_CLOEXEC, 0600);
	if (file < 0 || ftruncate(file, sizeof(struct told)) != 0)
		_exit(99);
	void *place = mmap(NULL, sizeof(struct told), PROT_READ | PROT_WRITE, MAP_SHARED, file, 0);
	close(file);
	if (place == MAP_FAILED)
		_exit(99);
	refuse_at = strtoull(number, NULL, 10);
	if (stream)
		talk = (int)strtol(stream, NULL, 10);
	told = place;
}

static uint64_t answer_to(uint64_t number, int64_t status)
{
	uint64_t said[2] = {number, (uint64_t)status};
	uint64_t heard;
	if (write(talk, said, sizeof said) != sizeof said || read(talk, &heard, sizeof heard) != sizeof heard)
		_exit(99);
	return heard;
}

/* Forks; tells whether this is the child, which ends with its parent. */
static int is_child(void)
{
	struct told before = *told;
	int status;
	answer_to(refuse_at, -1);
	pid_t child = fork();
	if (child == 0) {
		close(talk);
		talk = -1;
		is_of_fork = 1;
		if (prctl(PR_SET_PDEATHSIG, SIGKILL) != 0)
			_exit(99);
		return 1;
	}
	if (child < 0 || waitpid(child, &status, 0) != child)
		_exit(99);
	refuse_at = answer_to(refuse_at, status);
	*told = before;
	return 0;
}

static int is_refused(void)
{
	if (!told || __atomic_add_fetch(&told->asked, 1, __ATOMIC_RELAXED) != refuse_at)
		return 0;
	int found = errno;
	if (talk >= 0 && !is_child()) {
		errno = found;
		return 0;
	}
	__atomic_add_fetch(&told->refused, 1, __ATOMIC_RELAXED);
	errno = ENOMEM;
	return 1;
}

void *malloc(size_t size)
{
	return is_refused() ? NULL : __libc_malloc(size);
}

void *calloc(size_t count, size_t size)
{
	return is_refused() ? NULL : __libc_calloc(count, size);
}

/* The place of a block among those that were freed, or the free one for it. */
static void **place_of(void *block)
{
	size_t at = ((uintptr_t)block >> 4) * 0x9e3779b97f4a7c15U >> 50;
	while (freed[at] && freed[at] != block)
		at = (at + 1) % MOST_FREED;
	return &freed[at];
}

void free(void *block)
{
	if (!is_of_fork || !block || malloc_usable_size(block) < LARGE) {
		__libc_free(block);
		return;
	}
	void **place = place_of(block);
	if (*place)
		abort();
	if (freed_count < MOST_FREED / 2) {
		*place = block;
		freed_count++;
		return;
	}
	__libc_free(block);
}

void *realloc(void *old, size_t size)
{
	if (is_of_fork && old && *place_of(old))
		abort();
	return is_refused() ? NULL : __libc_realloc(old, size);
}

void *reallocarray(void *old, size_t count, size_t size)
{
	size_t whole;
	if (__builtin_mul_overflow(count, size, &whole)) {
		errno = ENOMEM;
		return NULL;
	}
	return realloc(old, whole);
}

void *memalign(size_t alignment, size_t size)
{
	return is_refused() ? NULL : __libc_memalign(alignment, size);
}

void *aligned_alloc(size_t alignment, size_t size)
{
	return memalign(alignment, size);
}

int posix_memalign(void **place, size_t alignment, size_t size)
{
	void *made = memalign(alignment, size);
	if (!made)
		return ENOMEM;
	*place = made;
	return 0;
}

int connect(int socket, const struct sockaddr *address, socklen_t size)
{
	if (told)
		__atomic_add_fetch(&told->connections, 1, __ATOMIC_RELAXED);
	return (int)syscall(SYS_connect, socket, address, size);
}

int listen(int socket, int count)
{
	if (told)
		__atomic_add_fetch(&told->listened, 1, __ATOMIC_RELAXED);
	return (int)syscall(SYS_listen, socket, count);
}
