// What the files of this folder share. They are the edge of heads.exe: what stands between the program's pages and
// Windows. Nothing proves them. Each function `port_NAME` stands for NAME of Linux's C library, which the program calls
// by System V's convention.
#pragma once
#define WIN32_LEAN_AND_MEAN
#include <stdint.h>
#include <windows.h>

#define SYSTEM_V __attribute__((sysv_abi))
#define PORT SYSTEM_V __attribute__((used))

// Linux's numbers of errors.
enum error_number {
    NO_SUCH_FILE = 2,       // ENOENT
    INPUT_OUTPUT = 5,       // EIO
    BAD_FILE = 9,           // EBADF
    TRY_AGAIN = 11,         // EAGAIN
    OUT_OF_MEMORY = 12,     // ENOMEM
    NO_ACCESS = 13,         // EACCES
    NOT_A_FOLDER = 20,      // ENOTDIR
    TOO_MANY_FILES = 24,    // EMFILE
    BROKEN_PIPE = 32,       // EPIPE
    NAME_TOO_LONG = 36,     // ENAMETOOLONG
    NO_SUCH_CALL = 38       // ENOSYS
};

// Notes the error of the calling thread, where port___errno_location gives it, and returns -1.
int failed(enum error_number error);

// Makes room for the threads' errors, before the program's first instruction. Whether there was room.
BOOL begin_threads(void);

PORT void *port_malloc(uint64_t size);
PORT void port_free(void *block);
