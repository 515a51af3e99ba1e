// Names of files. Nothing proves names.c.
#pragma once
#include "edge.h"

enum { NAME_ROOM = 4096 + 16 };

// The whole name of a file in the form that has no limit of 260 characters, in `room`. NULL where the name is no UTF-8, is
// too long, or is that of a device (NUL, CON).
WCHAR *whole_name(const char *name, WCHAR room[NAME_ROOM]);

// The error of a name one of whose folders is missing or is no folder, else 0. Windows drops `none\..` from a name where
// Linux looks whether the folder is there.
int error_of_folders(const char *name);
