/* Says which program is fresh, from a list of files as they were when that was found out.

       look TOP RT        RT is the command `rt` as the path has it, or an empty word

   Status 10 says that the proved program is fresh, 11 that the unproved one is, and 1 that the list doesn't tell: then whoever asks has
   to look at the files' contents, and to write the list anew (sources.py writes it, and says why it is safe). This is a program of its
   own because ./taverna looks at each start, at some four thousand files and folders: find takes four times as long.

   The list, TOP/out/looked, has a line `KIND RT` and then, for each file and folder, MARK INODE SIZE MTIME CTIME PATH, the times in
   nanoseconds. A file whose mark is ? belongs to the kit, which may be gone: no build could be made then. The kit's toolchain has no
   headers, so what is called of the C library and of Linux is declared here. */
typedef unsigned long long number;
struct moment { long long seconds; unsigned int nanoseconds; int spare; };
struct told {
    unsigned int mask, block;
    number attributes;
    unsigned int links, owner, group;
    unsigned short mode, spare;
    number inode, size, blocks, attributes_mask;
    struct moment access, birth, change, modification;
    number rest[16];
};
int open(const char *path, int flags, ...);
long read(int file, void *into, unsigned long most);
int chdir(const char *path);
void *malloc(unsigned long size);
void *realloc(void *old, unsigned long size);
int strcmp(const char *one, const char *other);
int statx(int folder, const char *path, int flags, unsigned int mask, struct told *into);

enum { PROVED = 10, UNPROVED = 11, UNTOLD = 1, HERE = -100, ASKED = 0x3c0, ROOM = 1 << 20 };

/* The list's bytes, with a 0 after them, or 0. */
static char *all_of(const char *path)
{
    unsigned long room = ROOM, length = 0;
    char *text = malloc(room + 1);
    int file = open(path, 0);
    if (file < 0) return 0;
    while (text) {
        long more = read(file, text + length, room - length);
        if (more < 0) return 0;
        if (more == 0) { text[length] = 0; return text; }
        length += more;
        if (length == room) text = realloc(text, (room *= 2) + 1);
    }
    return 0;
}

/* The number that stands there, and the byte after it is passed. */
static number next(char **at)
{
    number found = 0;
    while (**at >= '0' && **at <= '9') found = 10 * found + (*(*at)++ - '0');
    if (**at) ++*at;
    return found;
}

/* Ends the line that begins there, and gives it. */
static char *line(char **at)
{
    char *begin = *at;
    while (**at && **at != '\n') ++*at;
    if (**at) *(*at)++ = 0;
    return begin;
}

static number nanoseconds(struct moment it)
{
    return (number)it.seconds * 1000000000 + it.nanoseconds;
}

int main(int count, char **words)
{
    char *at, *first;
    int found;
    if (count != 3 || chdir(words[1]) || !(at = all_of("out/looked"))) return UNTOLD;
    first = line(&at);
    found = first[0] == 'p' ? PROVED : first[0] == 'u' ? UNPROVED : UNTOLD;
    while (*first && *first++ != ' ') {}
    if (words[2][0] && strcmp(words[2], first)) return UNTOLD;
    if (!*at) return UNTOLD;
    while (*at) {
        struct told it;
        char mark = *at;
        number inode, size, modified, changed;
        if (!*++at) return UNTOLD;
        ++at;
        inode = next(&at), size = next(&at), modified = next(&at), changed = next(&at);
        if (statx(HERE, line(&at), 0, ASKED, &it)) {
            if (mark == '?') continue;
            return UNTOLD;
        }
        if (it.inode != inode || it.size != size || nanoseconds(it.modification) != modified || nanoseconds(it.change) != changed) return UNTOLD;
    }
    return found;
}
