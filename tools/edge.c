// The C functions that a linked Rattle program needs beside the C library: the heap, the program's words and environment, errno,
// folders, locks and children. The kit has them built for x86-64 alone, so another processor takes these, written to what the
// kit's sources say of each (libc/src/heap.rt, os/src/c.rt). Nothing proves them; a slice comes as a pointer and a length.
// It calls nothing of the C library that the kit's own C code doesn't call. A function that isn't here fails the link, which is
// wanted: it is written when a program needs it.
#define _GNU_SOURCE
#include <errno.h>
#include <fcntl.h>
#include <signal.h>
#include <spawn.h>
#include <stddef.h>
#include <stdint.h>
#include <stdlib.h>
#include <sys/types.h>
#include <sys/wait.h>
#include <time.h>
#include <unistd.h>

// The heap. malloc aligns to 16 on this processor, which is the most that is asked for.
_Static_assert(_Alignof(max_align_t) >= 16, "malloc has to align to 16 bytes");

struct tried {
    size_t ok; // a bool in its lowest byte, and nothing above it
    void *p;
};

static _Alignas(16) unsigned char nothing[16];

static struct tried tried(void *p) {
    struct tried result = {p != NULL, p != NULL ? p : nothing};
    return result;
}

struct tried rattle_alloc(size_t n, size_t a) { return tried(malloc(n != 0 ? n : a)); }

struct tried rattle_realloc(void *p, size_t kept, size_t n, size_t a) {
    (void)kept;
    return tried(realloc(p, n != 0 ? n : a));
}

void rattle_dealloc(void *p) { free(p); }

// errno.
int rattle_errno(void) { return errno; }

void rattle_set_errno(int error) { errno = error; }

// The program's words, which glibc gives to what stands in .init_array.
static int count;
static char **words;

static void keep(int argc, char **argv, char **envp) {
    (void)envp;
    count = argc;
    words = argv;
}

__attribute__((section(".init_array"), used)) static void (*const at_start)(int, char **, char **) = keep;

// The text at the start of buf: its length, or -2 where it doesn't fit, and then buf is full; -1 where there is none.
static ssize_t put(const char *text, unsigned char *buf, size_t size) {
    if (text == NULL) {
        return -1;
    }
    for (size_t i = 0;; i++) {
        if (text[i] == 0) {
            return (ssize_t)i;
        }
        if (i == size) {
            return -2;
        }
        buf[i] = (unsigned char)text[i];
    }
}

size_t rattle_arg_count(void) { return (size_t)count; }

ssize_t rattle_arg(size_t i, unsigned char *buf, size_t size) { return put(i < (size_t)count ? words[i] : NULL, buf, size); }

ssize_t rattle_env(const char *name, unsigned char *buf, size_t size) { return put(getenv(name), buf, size); }

ssize_t rattle_env_at(size_t i, unsigned char *buf, size_t size) {
    char **at = environ;
    while (at != NULL && *at != NULL && i != 0) {
        at++;
        i--;
    }
    return put(at != NULL ? *at : NULL, buf, size);
}

// Folders and locks.
int rattle_open_dir_at(int dir, const char *name) { return openat(dir, name, O_RDONLY | O_DIRECTORY | O_NOFOLLOW | O_CLOEXEC); }

int rattle_lock_range(int fd, int16_t kind, int64_t start, int64_t length) {
    struct flock range = {.l_type = kind, .l_whence = SEEK_SET, .l_start = start, .l_len = length, .l_pid = 0};
    return fcntl(fd, F_OFD_SETLK, &range);
}

// Children. A list of texts, each ended by a 0, as C has it: NULL behind the last, and NULL for want of memory.
static char **list(const unsigned char *texts, size_t size) {
    size_t number = 0;
    for (size_t i = 0; i < size; i++) {
        number += texts[i] == 0;
    }
    if (number >= SIZE_MAX / sizeof(char *)) {
        return NULL;
    }
    char **made = malloc((number + 1) * sizeof *made);
    if (made == NULL) {
        return NULL;
    }
    size_t at = 0;
    for (size_t i = 0; i < size; i++) {
        if (i == 0 || texts[i - 1] == 0) {
            made[at++] = (char *)texts + i;
        }
    }
    made[at] = NULL;
    return made;
}

static int start(pid_t *pid, const char *path, char **args, char **env, const char *dir, const int *fds) {
    posix_spawn_file_actions_t files;
    posix_spawnattr_t how;
    sigset_t signals;
    int error = posix_spawn_file_actions_init(&files);
    if (error != 0) {
        return error;
    }
    error = posix_spawnattr_init(&how);
    if (error != 0) {
        posix_spawn_file_actions_destroy(&files);
        return error;
    }
    for (int i = 0; i < 3 && error == 0; i++) {
        error = fds[i] >= 0 ? posix_spawn_file_actions_adddup2(&files, fds[i], i) : 0;
    }
    if (error == 0 && dir[0] != 0) {
        error = posix_spawn_file_actions_addchdir_np(&files, dir);
    }
    if (error == 0) {
        error = posix_spawn_file_actions_addclosefrom_np(&files, 3);
    }
    if (error == 0) {
        sigemptyset(&signals);
        error = posix_spawnattr_setsigmask(&how, &signals);
    }
    if (error == 0) {
        sigaddset(&signals, SIGPIPE);
        error = posix_spawnattr_setsigdefault(&how, &signals);
    }
    if (error == 0) {
        error = posix_spawnattr_setflags(&how, POSIX_SPAWN_SETSIGMASK | POSIX_SPAWN_SETSIGDEF);
    }
    if (error == 0) {
        error = posix_spawn(pid, path, &files, &how, args, env);
    }
    posix_spawnattr_destroy(&how);
    posix_spawn_file_actions_destroy(&files);
    return error;
}

int rattle_spawn(const char *path, const unsigned char *args, size_t args_size, const unsigned char *env, size_t env_size,
                 const char *dir, const int *fds) {
    pid_t pid = -1;
    int error = EINVAL;
    if (args_size != 0 && args[args_size - 1] == 0 && (env_size == 0 || env[env_size - 1] == 0)) {
        char **args_list = list(args, args_size);
        char **env_list = list(env, env_size);
        error = args_list != NULL && env_list != NULL ? start(&pid, path, args_list, env_list, dir, fds) : ENOMEM;
        free(args_list);
        free(env_list);
    }
    if (error != 0) {
        errno = error;
        return -1;
    }
    return pid;
}

int rattle_kill_child(int pid) {
    siginfo_t info;
    if (pid <= 0) {
        errno = EINVAL;
        return -1;
    }
    return waitid(P_PID, (id_t)pid, &info, WEXITED | WNOHANG | WNOWAIT) < 0 ? -1 : kill(pid, SIGKILL);
}

// write with SIGPIPE held back: one that this write raised is taken away, one that was there before stays.
ssize_t rattle_write_no_sigpipe(int fd, const unsigned char *buf, size_t size) {
    sigset_t pipe_alone, before, waiting;
    sigemptyset(&pipe_alone);
    sigaddset(&pipe_alone, SIGPIPE);
    pthread_sigmask(SIG_BLOCK, &pipe_alone, &before);
    sigpending(&waiting);
    ssize_t done = write(fd, buf, size);
    int error = errno;
    if ((done < 0 || (size_t)done < size) && sigismember(&waiting, SIGPIPE) == 0) {
        struct timespec at_once = {0, 0};
        while (sigtimedwait(&pipe_alone, NULL, &at_once) < 0 && errno == EINTR) {
        }
    }
    pthread_sigmask(SIG_SETMASK, &before, NULL);
    errno = error;
    return done;
}
