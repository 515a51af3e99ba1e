// Files and standard streams. A file's number is its place in a table; 0 to 2 are the standard streams. Nothing proves
// this file.
#include "names.h"

enum { FILES = 64, FIRST_FILE = 3, WRITES_OR_MAKES = 3 | 0100 | 01000 | 02000 };
enum { MOST_AT_ONCE = 1 << 30, MOST_TO_A_CONSOLE = 1 << 14 };

static HANDLE files[FILES];

static enum error_number number_of(DWORD error)
{
    switch (error) {
    case ERROR_FILE_NOT_FOUND:
    case ERROR_PATH_NOT_FOUND:
    case ERROR_INVALID_NAME:
    case ERROR_BAD_NETPATH:
    case ERROR_BAD_NET_NAME:
    case ERROR_INVALID_DRIVE:
    case ERROR_BAD_PATHNAME:
        return NO_SUCH_FILE;
    case ERROR_ACCESS_DENIED:
    case ERROR_SHARING_VIOLATION:
    case ERROR_LOCK_VIOLATION:
        return NO_ACCESS;
    case ERROR_FILENAME_EXCED_RANGE:
        return NAME_TOO_LONG;
    case ERROR_BROKEN_PIPE:
    case ERROR_NO_DATA:
    case ERROR_PIPE_NOT_CONNECTED:
        return BROKEN_PIPE;
    case ERROR_NOT_ENOUGH_MEMORY:
    case ERROR_OUTOFMEMORY:
        return OUT_OF_MEMORY;
    default:
        return INPUT_OUTPUT;
    }
}

// Stands for open. A number that no other open file has, for the file of this name, whose bytes it may read from the first
// on; or -1 and the error. It makes, changes and locks no file: flags that ask for more than reading are refused.
PORT int port_open(const char *name, int flags, ...)
{
    WCHAR room[NAME_ROOM], *whole = whole_name(name, room);
    int error = flags & WRITES_OR_MAKES ? NO_ACCESS : whole ? error_of_folders(name) : NO_SUCH_FILE;
    if (error)
        return failed(error);
    HANDLE file = CreateFileW(whole, GENERIC_READ, FILE_SHARE_READ | FILE_SHARE_WRITE | FILE_SHARE_DELETE, NULL,
                              OPEN_EXISTING, FILE_FLAG_SEQUENTIAL_SCAN, NULL);
    if (file == INVALID_HANDLE_VALUE)
        return failed(number_of(GetLastError()));
    for (int at = FIRST_FILE; at < FILES; at++)
        if (!InterlockedCompareExchangePointer(&files[at], file, NULL))
            return at;
    CloseHandle(file);
    return failed(TOO_MANY_FILES);
}

static HANDLE file_of(int number)
{
    static const DWORD streams[FIRST_FILE] = {STD_INPUT_HANDLE, STD_OUTPUT_HANDLE, STD_ERROR_HANDLE};
    if (number < 0 || number >= FILES)
        return NULL;
    HANDLE file = number < FIRST_FILE ? GetStdHandle(streams[number]) : files[number];
    return file == INVALID_HANDLE_VALUE ? NULL : file;
}

// Stands for read. How many of the file's next bytes, at most `size`, it put at the start of `room`, 0 at the end of the
// file alone; or -1 and the error. It doesn't change their ends of lines.
PORT int64_t port_read(int number, void *room, uint64_t size)
{
    HANDLE file = file_of(number);
    DWORD got = 0;
    if (!file)
        return failed(BAD_FILE);
    if (ReadFile(file, room, size < MOST_AT_ONCE ? size : MOST_AT_ONCE, &got, NULL))
        return got;
    DWORD error = GetLastError();
    return error == ERROR_BROKEN_PIPE || error == ERROR_HANDLE_EOF ? 0 : failed(number_of(error));
}

// Stands for write. How many of the first of these bytes the system took, which may be fewer than all; or -1 and the error.
// It doesn't change their ends of lines.
PORT int64_t port_write(int number, const void *bytes, uint64_t size)
{
    HANDLE file = file_of(number);
    DWORD put = 0;
    if (!file)
        return failed(BAD_FILE);
    if (size > MOST_TO_A_CONSOLE && GetFileType(file) == FILE_TYPE_CHAR)
        size = MOST_TO_A_CONSOLE;
    if (!WriteFile(file, bytes, size < MOST_AT_ONCE ? size : MOST_AT_ONCE, &put, NULL))
        return failed(number_of(GetLastError()));
    return put;
}

// Stands for __write, glibc's other name of write. The program calls it once, to say that the processor is too old.
PORT int64_t port___write(int number, const void *bytes, uint64_t size)
{
    return port_write(number, bytes, size);
}

// Stands for close. 0, and the number is free; or -1 and the error. The standard streams are not closed.
PORT int port_close(int number)
{
    if (number < FIRST_FILE || number >= FILES)
        return failed(BAD_FILE);
    HANDLE file = InterlockedExchangePointer(&files[number], NULL);
    if (!file)
        return failed(BAD_FILE);
    return CloseHandle(file) ? 0 : failed(INPUT_OUTPUT);
}
