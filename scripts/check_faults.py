"""What `rt check` says of the fault of an edited body, and what says nothing of it."""
import re

from edited_functions import NotTried

# An error of a check, with its file and its text; a proof file that names what isn't there any more.
ERROR = re.compile(r"(?:note: )?(?:\./)?(\S+?):\d+:\d+: (?:error: )?(.*)")
GONE = re.compile(r"has no field|is not in scope|has no `|was not admitted")
# What the check says of a function that isn't proved, and of one that only calls such a function.
UNPROVED = re.compile(r"fn (\S+): (?:not proved|no proof)")
CALLS = re.compile(r"fn \S+: (?:not proved|no proof): it calls")
# A function that the borrow checker doesn't read, so that none of its goals was tried.
NOT_COVERED = re.compile(r"borrow checker does not cover")
# An error of types, and one of a text that can't be read.
TYPES = re.compile(r"error\[")
UNREAD = re.compile(r"has no field|is not in scope|is no name|operand is missing|expected the end|cannot continue")


def is_unread(path, text):
    """Whether an error is of a text of the code or the definitions itself: it is of no goal, or of a name in it."""
    return path.startswith(("src/", "specs/")) and (not text.startswith("`") or UNREAD.search(text) is not None)


def whole_lines(lines):
    """The lines of a check, each with the indented lines after it, which go on with its text."""
    whole = []
    for line in lines:
        if line.startswith("  ") and whole:
            whole[-1] += " " + line.strip()
        else:
            whole.append(line)
    return whole


def errors_of(lines):
    """The errors of a check: of which file, the text, and the line. Where the edited text is not read, none counts."""
    errors = [(found[1], found[2], line) for line in whole_lines(lines)
              if (found := ERROR.match(line)) and "error" in line]
    unread = [line for line in lines if TYPES.search(line)]
    unread += [line for path, text, line in errors if is_unread(path, text)]
    if unread:
        raise NotTried(f"the edited text isn't proved at all: {unread[0]}")
    return errors


def fault_of(status, lines):
    """What a check says first of the fault of the edited code, or nothing where all is proved."""
    errors = errors_of(lines)
    if status == 0:
        return ""
    open_goals = [line for line in lines if UNPROVED.match(line)]
    if status != 1 or not open_goals:
        raise NotTried(f"the check ended with {status}: {' '.join(lines[-3:])}")
    own = [line for path, text, line in errors if not (path.startswith("proofs/") and GONE.search(text))]
    unread = [line for line in open_goals if NOT_COVERED.search(line)]
    if unread:
        raise NotTried(f"the goals of the edited text were not tried: {unread[0]}")
    if errors and not own:
        raise NotTried(f"a proof file only names what the edit took away: {errors[0][2]}")
    return (own or open_goals)[0]


def own_fault(function, status, lines):
    """What a check says first of the fault of this function itself, or nothing where it says none."""
    place = f"proofs/{function.replace('::', '/')}/"
    errors = [(text, line) for path, text, line in errors_of(lines) if path.startswith(place)]
    own = [line for text, line in errors if not GONE.search(text)]
    if not errors:
        own = [line for line in lines if (found := UNPROVED.match(line)) and found[1].partition("::")[2] == function
               and not CALLS.match(line) and not NOT_COVERED.search(line)]
    return own[0] if status == 1 and own else ""
