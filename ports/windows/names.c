#include "names.h"
#include <string.h>

enum { BYTES = 4096 };
static const WCHAR long_form[] = L"\\\\?\\", shared_form[] = L"\\\\?\\UNC";

// Puts a form before a whole name, which has room for it.
static WCHAR *put_before(WCHAR *name, const WCHAR *form, int letters)
{
    return memcpy(name - letters, form, letters * sizeof *form);
}

WCHAR *whole_name(const char *name, WCHAR room[NAME_ROOM])
{
    WCHAR given[BYTES], *whole = room + 8;
    if (!MultiByteToWideChar(CP_UTF8, MB_ERR_INVALID_CHARS, name, -1, given, BYTES))
        return NULL;
    DWORD length = GetFullPathNameW(given, NAME_ROOM - 8, whole, NULL);
    if (!length || length >= NAME_ROOM - 8)
        return NULL;
    if (whole[0] != '\\' || whole[1] != '\\')
        return put_before(whole, long_form, 4);
    if (whole[2] == '.' || whole[2] == '?')
        return NULL;
    // \\server\share becomes \\?\UNC\server\share.
    return put_before(whole + 1, shared_form, 7);
}

static BOOL parts_folders(char letter)
{
    return letter == '/' || letter == '\\';
}

int error_of_folders(const char *name)
{
    char part[BYTES];
    WCHAR room[NAME_ROOM];
    for (int at = 0; name[at] && at < BYTES - 1; at++) {
        part[at] = name[at];
        if (!parts_folders(name[at]) || at == 0 || name[at - 1] == ':' || parts_folders(name[at - 1]))
            continue;
        part[at] = 0;
        WCHAR *folder = whole_name(part, room);
        DWORD is = folder ? GetFileAttributesW(folder) : INVALID_FILE_ATTRIBUTES;
        if (is == INVALID_FILE_ATTRIBUTES)
            return NO_SUCH_FILE;
        if (!(is & FILE_ATTRIBUTE_DIRECTORY))
            return NOT_A_FOLDER;
        part[at] = name[at];
    }
    return 0;
}
